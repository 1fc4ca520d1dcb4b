/* Tests the C library from C: the worked run call by call, every function's refusals, and random records fed to one cell while
 * the same calls are made directly on another. Prints "ok", or what differs. c/c_library.sh builds and runs it.
 */
#include <stdio.h>
#include <stdlib.h>
#include <string.h>

#include "dalgweniz.h"

static int wrong;

#define EXPECT(found, wanted)                                                                                                \
    do {                                                                                                                     \
        long long f_ = (long long)(found), w_ = (long long)(wanted);                                                         \
        if (f_ != w_ && wrong++ < 20)                                                                                        \
            printf("%s:%d: %s is %lld, not %lld\n", __FILE__, __LINE__, #found, f_, w_);                                     \
    } while (0)

/* Everything that can be asked of a cell. */
typedef struct {
    uint64_t mark;
    uint32_t booked, turns;
    uint8_t keep;
    struct {
        uint8_t answer;
        dalgweniz_standing standing;
        dalgweniz_frame_out frames[33];
        uint64_t credit, extra;
    } places[DALGWENIZ_PLACES];
} picture;

static void look(const dalgweniz_cell *cell, picture *p)
{
    memset(p, 0, sizeof *p);
    p->mark = dalgweniz_mark(cell);
    p->booked = dalgweniz_booked(cell);
    p->turns = dalgweniz_turns(cell);
    p->keep = dalgweniz_keep(cell);
    for (unsigned k = 0; k < DALGWENIZ_PLACES; k++) {
        p->places[k].answer = dalgweniz_session(cell, (uint8_t)k, &p->places[k].standing);
        for (size_t i = 0; i < 33; i++)
            EXPECT(dalgweniz_frame(cell, (uint8_t)k, i, &p->places[k].frames[i]), p->places[k].answer);
        EXPECT(dalgweniz_count(cell, false, (uint8_t)k, &p->places[k].credit), 0);
        EXPECT(dalgweniz_count(cell, true, (uint8_t)k, &p->places[k].extra), 0);
    }
}

/* The pictures are of the same cell; the out-structs' padding is left out. */
static bool same(const picture *a, const picture *b)
{
    if (a->mark != b->mark || a->booked != b->booked || a->turns != b->turns || a->keep != b->keep)
        return false;
    for (unsigned k = 0; k < DALGWENIZ_PLACES; k++) {
        const dalgweniz_standing *s = &a->places[k].standing, *t = &b->places[k].standing;

        if (a->places[k].answer != b->places[k].answer || a->places[k].credit != b->places[k].credit ||
            a->places[k].extra != b->places[k].extra || s->virtual_time != t->virtual_time || s->lag != t->lag ||
            s->allowance != t->allowance || s->waiting != t->waiting || s->rate != t->rate || s->price != t->price ||
            s->good != t->good || s->active != t->active)
            return false;
        for (int i = 0; i < 33; i++) {
            const dalgweniz_frame_out *f = &a->places[k].frames[i], *g = &b->places[k].frames[i];

            if (f->tag != g->tag || f->length != g->length || f->there != g->there)
                return false;
        }
    }
    return true;
}

/* ---- memory, layout, making */

/* Two cells, with memory on both sides that nobody may touch. */
typedef struct {
    uint8_t low[64];
    dalgweniz_cell it;
    uint8_t high[64];
} guarded;

static guarded first, second;
static dalgweniz_cell *const cell = &first.it, *const other = &second.it;
static picture before, after;

static void guard(guarded *g)
{
    memset(g->low, 0xa5, sizeof g->low);
    memset(g->high, 0xa5, sizeof g->high);
}

static bool untouched(const uint8_t *bytes, size_t n)
{
    while (n > 0 && bytes[n - 1] == 0xa5)
        n--;
    return n == 0;
}

static void test_make(void)
{
    EXPECT(dalgweniz_size(), sizeof(dalgweniz_cell));
    EXPECT(dalgweniz_size(), DALGWENIZ_CELL_BYTES);
    /* all zero is the new cell with keep 0 */
    look(cell, &before);
    EXPECT(before.places[63].answer, DALGWENIZ_PLACE_NOT_OPEN);
    EXPECT(dalgweniz_make(cell, 0), DALGWENIZ_DONE);
    look(cell, &after);
    EXPECT(same(&before, &after), true);
    for (unsigned keep = 0; keep <= 4; keep++) {
        EXPECT(dalgweniz_make(cell, (uint8_t)keep), DALGWENIZ_DONE);
        EXPECT(dalgweniz_keep(cell), keep);
    }
    EXPECT(dalgweniz_make(cell, 5), DALGWENIZ_KEEP_TOO_HIGH);
    EXPECT(dalgweniz_make(cell, 255), DALGWENIZ_KEEP_TOO_HIGH);
    EXPECT(dalgweniz_keep(cell), 4);
}

/* ---- the worked run, call by call */

static void turn_is(uint8_t chosen, uint8_t sender, uint32_t tag, uint16_t length, char kind)
{
    dalgweniz_turn_out t;

    memset(&t, 0xff, sizeof t);
    EXPECT(dalgweniz_turn(cell, &t), DALGWENIZ_DONE);
    EXPECT(t.chosen, chosen);
    EXPECT(t.sent, 1);
    EXPECT(t.sender, sender);
    EXPECT(t.tag, tag);
    EXPECT(t.length, length);
    EXPECT(t.kind, kind);
}

static void test_run(void)
{
    dalgweniz_standing s;
    dalgweniz_frame_out f;
    dalgweniz_turn_out t;
    uint64_t count;

    EXPECT(dalgweniz_make(cell, 2), DALGWENIZ_DONE);
    EXPECT(dalgweniz_open(cell, 0, 360360), DALGWENIZ_DONE);
    EXPECT(dalgweniz_open(cell, 1, 240240), DALGWENIZ_DONE);
    EXPECT(dalgweniz_booked(cell), 600600);
    EXPECT(dalgweniz_arrive(cell, 0, 1, 100), DALGWENIZ_DONE);
    EXPECT(dalgweniz_arrive(cell, 0, 2, 100), DALGWENIZ_DONE);
    EXPECT(dalgweniz_arrive(cell, 1, 3, 101), DALGWENIZ_DONE);
    EXPECT(dalgweniz_arrive(cell, 1, 4, 50), DALGWENIZ_DONE);
    EXPECT(dalgweniz_frame(cell, 1, 1, &f), DALGWENIZ_DONE);
    EXPECT(f.there, 1);
    EXPECT(f.tag, 4);
    EXPECT(f.length, 50);
    EXPECT(dalgweniz_frame(cell, 1, 2, &f), DALGWENIZ_DONE);
    EXPECT(f.there, 0);
    EXPECT(f.tag, 0);
    EXPECT(dalgweniz_report(cell, 0, false), DALGWENIZ_DONE);
    turn_is(0, 1, 3, 101, 'x');
    EXPECT(dalgweniz_session(cell, 0, &s), DALGWENIZ_DONE);
    EXPECT(s.lag, 101);
    EXPECT(s.good, 0);
    EXPECT(s.active, 1);
    EXPECT(s.waiting, 2);
    EXPECT(s.virtual_time, 202);
    EXPECT(dalgweniz_session(cell, 1, &s), DALGWENIZ_DONE);
    EXPECT(s.lag, -101);
    EXPECT(s.rate, 240240);
    EXPECT(s.price, 3);
    EXPECT(s.good, 1);
    EXPECT(dalgweniz_count(cell, true, 1, &count), DALGWENIZ_DONE);
    EXPECT(count, 303);
    EXPECT(dalgweniz_report(cell, 0, true), DALGWENIZ_DONE);
    turn_is(1, 1, 4, 50, 'n');
    turn_is(1, 0, 1, 100, 'c');
    EXPECT(dalgweniz_count(cell, false, 0, &count), DALGWENIZ_DONE);
    EXPECT(count, 200);
    turn_is(0, 0, 2, 100, 'n');
    EXPECT(dalgweniz_mark(cell), 450);
    EXPECT(dalgweniz_turns(cell), 4);
    EXPECT(dalgweniz_session(cell, 0, &s), DALGWENIZ_DONE);
    EXPECT(s.lag, 0);
    EXPECT(dalgweniz_turn(cell, &t), DALGWENIZ_NONE_ACTIVE);
    EXPECT(dalgweniz_close(cell, 1), DALGWENIZ_DONE);
}

/* ---- refusals change nothing */

static void test_refusals(void)
{
    dalgweniz_standing s;
    dalgweniz_frame_out f;
    dalgweniz_turn_out t;
    dalgweniz_fed fed;
    uint8_t line[DALGWENIZ_LINE], bytes[64];
    uint64_t count = 7;

    memset(bytes, 0xa5, sizeof bytes);
    EXPECT(dalgweniz_make(cell, 2), DALGWENIZ_DONE);
    EXPECT(dalgweniz_open(cell, 3, 720720), DALGWENIZ_DONE);
    look(cell, &before);
    EXPECT(dalgweniz_open(cell, 64, 17), DALGWENIZ_PLACE_TOO_HIGH);
    EXPECT(dalgweniz_open(cell, 3, 17), DALGWENIZ_PLACE_OPEN);
    EXPECT(dalgweniz_open(cell, 4, 17), DALGWENIZ_RATE_NOT_IN_TARIFF);
    EXPECT(dalgweniz_open(cell, 4, 0), DALGWENIZ_RATE_NOT_IN_TARIFF);
    EXPECT(dalgweniz_open(cell, 4, 1), DALGWENIZ_LINK_OVERBOOKED);
    EXPECT(dalgweniz_close(cell, 64), DALGWENIZ_PLACE_TOO_HIGH);
    EXPECT(dalgweniz_close(cell, 4), DALGWENIZ_PLACE_NOT_OPEN);
    EXPECT(dalgweniz_arrive(cell, 200, 1, 0), DALGWENIZ_PLACE_TOO_HIGH);
    EXPECT(dalgweniz_arrive(cell, 4, 1, 0), DALGWENIZ_PLACE_NOT_OPEN);
    EXPECT(dalgweniz_arrive(cell, 3, 1, 0), DALGWENIZ_LENGTH_OUT_OF_RANGE);
    EXPECT(dalgweniz_arrive(cell, 3, 1, 1537), DALGWENIZ_LENGTH_OUT_OF_RANGE);
    EXPECT(dalgweniz_report(cell, 64, true), DALGWENIZ_PLACE_TOO_HIGH);
    EXPECT(dalgweniz_report(cell, 4, false), DALGWENIZ_PLACE_NOT_OPEN);
    memset(&t, 0xa5, sizeof t);
    EXPECT(dalgweniz_turn(cell, &t), DALGWENIZ_NONE_ACTIVE);
    EXPECT(memcmp(&t, bytes, sizeof t), 0);
    memset(&s, 0xa5, sizeof s);
    EXPECT(dalgweniz_session(cell, 64, &s), DALGWENIZ_PLACE_TOO_HIGH);
    EXPECT(dalgweniz_session(cell, 4, &s), DALGWENIZ_PLACE_NOT_OPEN);
    EXPECT(memcmp(&s, bytes, sizeof s), 0);
    memset(&f, 0xa5, sizeof f);
    EXPECT(dalgweniz_frame(cell, 64, 0, &f), DALGWENIZ_PLACE_TOO_HIGH);
    EXPECT(dalgweniz_frame(cell, 4, 0, &f), DALGWENIZ_PLACE_NOT_OPEN);
    EXPECT(memcmp(&f, bytes, sizeof f), 0);
    EXPECT(dalgweniz_frame(cell, 3, SIZE_MAX, &f), DALGWENIZ_DONE);
    EXPECT(f.there, 0);
    EXPECT(dalgweniz_count(cell, true, 64, &count), DALGWENIZ_PLACE_TOO_HIGH);
    EXPECT(dalgweniz_count(cell, false, 255, &count), DALGWENIZ_PLACE_TOO_HIGH);
    EXPECT(count, 7);
    memset(line, 0xa5, sizeof line);
    memset(&fed, 0xa5, sizeof fed);
    EXPECT(dalgweniz_feed(cell, 1, (const uint8_t *)"C\3\0\0\0\0\0\0--------", 16, line, 63, &fed), DALGWENIZ_BUFFER_TOO_SHORT);
    EXPECT(dalgweniz_feed(cell, 1, (const uint8_t *)"?", 1, line, 0, &fed), DALGWENIZ_BUFFER_TOO_SHORT);
    EXPECT(memcmp(line, bytes, sizeof line), 0);
    EXPECT(memcmp(&fed, bytes, sizeof fed), 0);
    look(cell, &after);
    EXPECT(same(&before, &after), true);
    for (int i = 0; i < 32; i++)
        EXPECT(dalgweniz_arrive(cell, 3, (uint32_t)i, 1536), DALGWENIZ_DONE);
    EXPECT(dalgweniz_arrive(cell, 3, 32, 1536), DALGWENIZ_QUEUE_FULL);
    EXPECT(dalgweniz_close(cell, 3), DALGWENIZ_SESSION_ACTIVE);
    EXPECT(dalgweniz_report(cell, 3, false), DALGWENIZ_DONE);
    EXPECT(dalgweniz_turn(cell, &t), DALGWENIZ_DONE);
    EXPECT(t.kind, 'i');
    EXPECT(t.sent, 0);
    EXPECT(t.sender, 0);
    EXPECT(t.tag, 0);
    EXPECT(t.length, 256);
}

static void test_ahead(void)
{
    dalgweniz_turn_out t;

    EXPECT(dalgweniz_make(cell, 2), DALGWENIZ_DONE);
    EXPECT(dalgweniz_open(cell, 0, 360360), DALGWENIZ_DONE);
    EXPECT(dalgweniz_open(cell, 1, 240240), DALGWENIZ_DONE);
    EXPECT(dalgweniz_arrive(cell, 0, 1, 100), DALGWENIZ_DONE);
    EXPECT(dalgweniz_arrive(cell, 1, 2, 100), DALGWENIZ_DONE);
    EXPECT(dalgweniz_turn(cell, &t), DALGWENIZ_DONE);
    EXPECT(dalgweniz_close(cell, 0), DALGWENIZ_AHEAD_OF_MARK);
}

/* What follows an out-struct in memory stays. */
static void test_outs(void)
{
    uint64_t memory[16];
    uint8_t *const bytes = (uint8_t *)memory;
    uint8_t line[DALGWENIZ_LINE];

    EXPECT(dalgweniz_make(cell, 2), DALGWENIZ_DONE);
    EXPECT(dalgweniz_open(cell, 0, 1), DALGWENIZ_DONE);
    EXPECT(dalgweniz_arrive(cell, 0, 1, 1), DALGWENIZ_DONE);
    memset(memory, 0xa5, sizeof memory);
    EXPECT(dalgweniz_session(cell, 0, (dalgweniz_standing *)memory), DALGWENIZ_DONE);
    EXPECT(untouched(bytes + sizeof(dalgweniz_standing), sizeof memory - sizeof(dalgweniz_standing)), true);
    memset(memory, 0xa5, sizeof memory);
    EXPECT(dalgweniz_frame(cell, 0, 0, (dalgweniz_frame_out *)memory), DALGWENIZ_DONE);
    EXPECT(untouched(bytes + sizeof(dalgweniz_frame_out), sizeof memory - sizeof(dalgweniz_frame_out)), true);
    memset(memory, 0xa5, sizeof memory);
    EXPECT(dalgweniz_turn(cell, (dalgweniz_turn_out *)memory), DALGWENIZ_DONE);
    EXPECT(untouched(bytes + sizeof(dalgweniz_turn_out), sizeof memory - sizeof(dalgweniz_turn_out)), true);
    memset(memory, 0xa5, sizeof memory);
    EXPECT(dalgweniz_feed(cell, 1, (const uint8_t *)"", 0, line, sizeof line, (dalgweniz_fed *)memory), DALGWENIZ_DONE);
    EXPECT(untouched(bytes + sizeof(dalgweniz_fed), sizeof memory - sizeof(dalgweniz_fed)), true);
}

/* ---- faults of a record */

static void fault_is(const char *record, size_t bytes, uint8_t refusal, size_t byte, const char *text)
{
    uint8_t line[80];
    dalgweniz_fed fed;

    memset(line, 0xa5, sizeof line);
    look(cell, &before);
    EXPECT(dalgweniz_feed(cell, 1, (const uint8_t *)record, bytes, line, sizeof line, &fed), DALGWENIZ_DONE);
    EXPECT(fed.refusal, refusal);
    EXPECT(fed.layer, DALGWENIZ_BY_THE_RECORD);
    EXPECT(fed.byte, byte);
    EXPECT(fed.stop, 1);
    EXPECT(fed.line, strlen(text));
    EXPECT(memcmp(line, text, strlen(text)), 0);
    EXPECT(line[strlen(text)], 0xa5);
    look(cell, &after);
    EXPECT(same(&before, &after), true);
}

static void test_faults(void)
{
    fault_is("", 0, 0, 0, "");
    fault_is("T\0\0\0\0\0\0\0-------", 15, DALGWENIZ_TRUNCATED_RECORD, 15, "1 ? E1\n");
    fault_is("?\0\0\0\0\0\0\0--------", 16, DALGWENIZ_UNKNOWN_LETTER, 0, "1 ? E2\n");
    fault_is("T\0\0\0\0\1\0\0--------", 16, DALGWENIZ_UNUSED_BYTE_NOT_ZERO, 5, "1 ? E3\n");
    fault_is("T\0\0\0\0\0\0\0---\n----", 16, DALGWENIZ_NOTE_NOT_PRINTABLE, 11, "1 ? E4\n");
}

/* ---- random records, fed to one cell and called on another */

static uint32_t chance(uint32_t below)
{
    static uint64_t state = 1;

    state = state * 6364136223846793005u + 1442695040888963407u;
    return (uint32_t)(state >> 33) % below;
}

/* Makes the call of a record directly; `text` becomes the result that its line shows. */
static uint8_t call(const uint8_t *r, char *text)
{
    uint32_t value = r[4] | (uint32_t)r[5] << 8 | (uint32_t)r[6] << 16 | (uint32_t)r[7] << 24;
    dalgweniz_turn_out t;
    uint8_t answer = 0;

    strcpy(text, "ok");
    switch (r[0]) {
    case 'O': answer = dalgweniz_open(other, r[1], value); break;
    case 'C': answer = dalgweniz_close(other, r[1]); break;
    case 'A': answer = dalgweniz_arrive(other, r[1], value, (uint16_t)(r[2] | r[3] << 8)); break;
    case 'G': answer = dalgweniz_report(other, r[1], true); break;
    case 'B': answer = dalgweniz_report(other, r[1], false); break;
    default:
        answer = dalgweniz_turn(other, &t);
        if (answer == 0 && t.sent)
            sprintf(text, "%u/%u/%u/%u/%c", t.chosen, t.sender, (unsigned)t.tag, t.length, t.kind);
        else if (answer == 0)
            sprintf(text, "%u/-/-/%u/%c", t.chosen, t.length, t.kind);
    }
    if (answer != 0)
        sprintf(text, "E%u", answer);
    return answer;
}

static void make_record(uint8_t *r)
{
    static const uint32_t rates[] = {720720, 360360, 240240, 65520, 5040, 1001, 1, 17};
    uint32_t value = 0, length = chance(50) == 0 ? chance(3000) : 1 + chance(1536);

    memcpy(r, "\0\0\0\0\0\0\0\0--------", 16);
    r[0] = (uint8_t) "OCAAAAAGGBTTTTTTT"[chance(17)];
    if (r[0] != 'T')
        r[1] = (uint8_t)(chance(40) == 0 ? 60 + chance(10) : chance(6));
    if (r[0] == 'O')
        value = rates[chance(8)];
    if (r[0] == 'A') {
        value = chance(1000000);
        r[2] = (uint8_t)length;
        r[3] = (uint8_t)(length >> 8);
    }
    for (int i = 0; i < 4; i++)
        r[4 + i] = (uint8_t)(value >> 8 * i);
}

static void test_feed(int records)
{
    uint8_t r[17] = {0}, line[DALGWENIZ_LINE]; /* one byte more than a record has; it is not read */
    char result[40], expected[100];
    dalgweniz_fed fed;

    EXPECT(dalgweniz_make(cell, 3), DALGWENIZ_DONE);
    EXPECT(dalgweniz_make(other, 3), DALGWENIZ_DONE);
    for (int n = 1; n <= records && wrong == 0; n++) {
        make_record(r);
        uint8_t answer = call(r, result);

        sprintf(expected, "%d %c %s --------\n", n, r[0], result);
        EXPECT(dalgweniz_feed(cell, (uint64_t)n, r, 16 + chance(2), line, sizeof line, &fed), DALGWENIZ_DONE);
        EXPECT(fed.line, strlen(expected));
        EXPECT(memcmp(line, expected, strlen(expected)), 0);
        EXPECT(fed.refusal, answer);
        EXPECT(fed.layer, answer == 0 ? 0 : DALGWENIZ_BY_THE_CELL);
        EXPECT(fed.byte, 0);
        EXPECT(fed.stop, 0);
        if (n % 50 == 0) {
            look(cell, &before);
            look(other, &after);
            EXPECT(same(&before, &after), true);
        }
    }
}

int main(int argc, char **argv)
{
    guard(&first);
    guard(&second);
    test_make();
    test_run();
    test_refusals();
    test_ahead();
    test_outs();
    test_faults();
    test_feed(argc > 1 ? atoi(argv[1]) : 50000);
    EXPECT(untouched(first.low, sizeof first.low) && untouched(first.high, sizeof first.high), true);
    EXPECT(untouched(second.low, sizeof second.low) && untouched(second.high, sizeof second.high), true);
    if (wrong == 0)
        printf("ok\n");
    return wrong == 0 ? 0 : 1;
}
