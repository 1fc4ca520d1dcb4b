/* Plays a recording through the C library and prints what `reference --state N` prints:
 * the line of each record, and after every Nth record and at the end the whole state, asked
 * from the library question by question.
 *
 *   gcc -O2 states.c libdalgweniz.a -o states
 *   ./states N [KEEP] < recording      N = 0: the state at the end only; KEEP is 2 if not given
 *
 * A second cell, the twin, is played beside the first by the library's single calls. It has
 * to answer the same to every record, and to have the same state at the end.
 *
 * Exit status: 0; 1 if the twin differs, a question is refused, or input or output fails;
 * 2 for wrong arguments. */
#include <stdio.h>
#include <stdlib.h>
#include <string.h>

#include "dalgweniz.h"

enum { MOST_RECORDS = 1000000 };

static dalgweniz_cell cell, twin;
static uint64_t number; /* of the record that was played last */

static void wrong(const char *what) {
    fflush(stdout);
    fprintf(stderr, "states: record %llu: %s\n", (unsigned long long)number, what);
    exit(1);
}

/* ---- a page of text, large enough for any state */

typedef struct {
    size_t length;
    char text[1 << 17];
} page;

static void put_text(page *p, const char *words) {
    size_t length = strlen(words);
    memcpy(p->text + p->length, words, length);
    p->length += length;
}

static void put(page *p, const char *name, uint64_t value) {
    char digits[20];
    int at = sizeof digits;
    do {
        digits[--at] = (char)('0' + value % 10);
    } while (value /= 10);
    put_text(p, name);
    memcpy(p->text + p->length, digits + at, sizeof digits - at);
    p->length += sizeof digits - at;
}

static void put_signed(page *p, const char *name, int64_t value) {
    put_text(p, name);
    put(p, value < 0 ? "-" : "", value < 0 ? -(uint64_t)value : (uint64_t)value);
}

/* ---- asking */

/* A question about a place that is open is not refused. */
static void must(uint8_t answer) {
    if (answer != DALGWENIZ_DONE) wrong("a question about an open place was refused");
}

static uint64_t count(const dalgweniz_cell *c, bool extra, uint8_t place) {
    uint64_t served;
    must(dalgweniz_count(c, extra, place, &served));
    return served;
}

static void put_frames(page *p, const dalgweniz_cell *c, uint8_t place, size_t waiting) {
    dalgweniz_frame_out frame;
    for (size_t i = 0; i < waiting; i++) {
        must(dalgweniz_frame(c, place, i, &frame));
        if (!frame.there) wrong("a frame that waits is not there");
        put(p, " ", frame.tag);
        put(p, ":", frame.length);
    }
    must(dalgweniz_frame(c, place, waiting, &frame));
    if (frame.there) wrong("one more frame is there than waits");
}

static void put_place(page *p, const dalgweniz_cell *c, uint8_t place) {
    uint64_t credit = count(c, false, place), extra = count(c, true, place);
    dalgweniz_standing s;
    uint8_t answer = dalgweniz_session(c, place, &s);
    if (answer == DALGWENIZ_PLACE_NOT_OPEN) {
        if (credit == 0 && extra == 0) return;
        put(p, "closed ", place);
    } else {
        must(answer);
        put(p, "place ", place);
        put(p, " rate ", s.rate);
        put(p, " price ", s.price);
        put(p, " time ", s.virtual_time);
        put_signed(p, " lag ", s.lag);
        put_signed(p, " allowance ", s.allowance);
        put_text(p, s.good ? " channel good" : " channel bad");
        put_text(p, s.active ? " active yes" : " active no");
    }
    put(p, " credit ", credit);
    put(p, " extra ", extra);
    if (answer == DALGWENIZ_DONE) {
        put(p, " waiting ", s.waiting);
        put_frames(p, c, place, s.waiting);
    }
    put_text(p, "\n");
}

static void put_state(page *p, const dalgweniz_cell *c) {
    p->length = 0;
    put(p, "state after ", number);
    put(p, " mark ", dalgweniz_mark(c));
    put(p, " booked ", dalgweniz_booked(c));
    put(p, " turns ", dalgweniz_turns(c));
    put(p, " keep ", dalgweniz_keep(c));
    put_text(p, "\n");
    for (uint8_t place = 0; place < DALGWENIZ_PLACES; place++) put_place(p, c, place);
}

static page of_cell, of_twin;

static void print_state(void) {
    put_state(&of_cell, &cell);
    fwrite(of_cell.text, 1, of_cell.length, stdout);
}

/* After the last print_state. */
static void compare_twin(void) {
    put_state(&of_twin, &twin);
    if (of_cell.length != of_twin.length || memcmp(of_cell.text, of_twin.text, of_cell.length) != 0)
        wrong("the single calls have left another state than feed");
}

/* ---- playing */

/* The twin's call for a record that could be read. */
static uint8_t call_twin(const uint8_t *record, dalgweniz_turn_out *turn) {
    uint8_t place = record[1];
    uint16_t length = (uint16_t)(record[2] | record[3] << 8);
    uint32_t value = record[4] | record[5] << 8 | record[6] << 16 | (uint32_t)record[7] << 24;
    switch (record[0]) {
    case 'O': return dalgweniz_open(&twin, place, value);
    case 'C': return dalgweniz_close(&twin, place);
    case 'A': return dalgweniz_arrive(&twin, place, value, length);
    case 'G': return dalgweniz_report(&twin, place, true);
    case 'B': return dalgweniz_report(&twin, place, false);
    default: return dalgweniz_turn(&twin, turn);
    }
}

/* The line that the twin's answer makes. */
static void twin_line(page *p, const uint8_t *record, uint8_t refusal, const dalgweniz_turn_out *turn) {
    char letter[] = {' ', (char)record[0], ' ', 0}, kind[] = {'/', (char)turn->kind, 0}, note[11] = " ";
    memcpy(note + 1, record + 8, 8);
    note[9] = '\n';
    p->length = 0;
    put(p, "", number);
    put_text(p, letter);
    if (refusal != DALGWENIZ_DONE) {
        put(p, "E", refusal);
    } else if (record[0] != 'T') {
        put_text(p, "ok");
    } else {
        put(p, "", turn->chosen);
        if (turn->sent) {
            put(p, "/", turn->sender);
            put(p, "/", turn->tag);
        } else {
            put_text(p, "/-/-");
        }
        put(p, "/", turn->length);
        put_text(p, kind);
    }
    put_text(p, note);
}

static void play_twin(const uint8_t *record, const uint8_t *line, const dalgweniz_fed *fed) {
    static page answer;
    dalgweniz_turn_out turn = {0};
    uint8_t refusal = call_twin(record, &turn);
    twin_line(&answer, record, refusal, &turn);
    if (answer.length != fed->line || memcmp(answer.text, line, fed->line) != 0)
        wrong("the single call has answered otherwise than feed");
    uint8_t layer = refusal == DALGWENIZ_DONE ? 0 : DALGWENIZ_BY_THE_CELL;
    if (fed->refusal != refusal || fed->layer != layer || fed->byte != 0)
        wrong("feed says another refusal, layer or byte than the single call");
}

static void print_fault(const dalgweniz_fed *fed) {
    static page p;
    put(&p, "fault ", fed->refusal);
    put_text(&p, fed->layer == DALGWENIZ_BY_THE_RECORD ? " layer record" : " layer cell");
    put(&p, " number ", number);
    put(&p, " byte ", fed->byte);
    put_text(&p, "\n");
    fwrite(p.text, 1, p.length, stdout);
}

/* Plays the next record; false where there is no more to play. */
static bool play(void) {
    uint8_t record[DALGWENIZ_RECORD], line[DALGWENIZ_LINE];
    dalgweniz_fed fed;
    size_t bytes = fread(record, 1, sizeof record, stdin);
    if (dalgweniz_feed(&cell, number + 1, record, bytes, line, sizeof line, &fed) != DALGWENIZ_DONE)
        wrong("feed has refused a buffer of 64 bytes");
    if (bytes == 0) return false;
    number++;
    fwrite(line, 1, fed.line, stdout);
    if (fed.stop) {
        print_fault(&fed);
        return false;
    }
    play_twin(record, line, &fed);
    return true;
}

int main(int words, char **word) {
    if (words < 2 || words > 3) {
        fprintf(stderr, "states N [KEEP] < recording\n");
        return 2;
    }
    uint64_t every = strtoull(word[1], NULL, 10);
    uint8_t keep = words == 3 ? (uint8_t)atoi(word[2]) : 2;
    if (dalgweniz_size() != sizeof cell) wrong("header and library do not belong together");
    if (dalgweniz_make(&cell, keep) != DALGWENIZ_DONE || dalgweniz_make(&twin, keep) != DALGWENIZ_DONE) {
        fprintf(stderr, "states: a keep is 0 to 4\n");
        return 2;
    }
    while (number < MOST_RECORDS && play())
        if (every != 0 && number % every == 0) print_state();
    print_state();
    compare_twin();
    return ferror(stdin) || fflush(stdout) != 0 || ferror(stdout);
}
