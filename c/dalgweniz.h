/* Dalgweniz for C: one radio cell of 64 places in the caller's memory, with keep 0 to 4 and the chooser "least served".
 *
 * Link with libdalgweniz.a (c/make_library.sh writes it to c/out). docs/C-LIBRARY.md tells the rest.
 *
 * Every function answers on every number it is given. A function that can refuse answers 0 for done, and otherwise the number
 * of the refusal; a refusal leaves the cell, every out-struct and every buffer as they were.
 *
 * What C owes, and nobody checks:
 *   - The memory of a cell is all zero before the first dalgweniz_make (static memory, calloc or memset). All zero is a cell:
 *     the new one with keep 0. After that only the functions below write there. A made cell may be made anew, or copied.
 *   - It is aligned to 8 bytes, which the type below gives.
 *   - Pointers are not null. Out-structs and buffers lie outside the cell and do not overlap each other.
 *   - One call at a time on one cell. Different cells are independent of each other.
 */
#ifndef DALGWENIZ_H
#define DALGWENIZ_H

#include <stdbool.h>
#include <stddef.h>
#include <stdint.h>

#ifdef __cplusplus
extern "C" {
#endif

/* Refusals. Where the conditions of several hold, the lowest number is given. */
enum {
    DALGWENIZ_DONE = 0,
    DALGWENIZ_TRUNCATED_RECORD = 1,      /* the input ends inside a record */
    DALGWENIZ_UNKNOWN_LETTER = 2,        /* byte 0 is none of O, C, A, G, B, T */
    DALGWENIZ_UNUSED_BYTE_NOT_ZERO = 3,  /* a byte that this letter leaves unused is not zero */
    DALGWENIZ_NOTE_NOT_PRINTABLE = 4,    /* a note byte lies outside 32 to 126 */
    DALGWENIZ_PLACE_TOO_HIGH = 5,        /* a place above 63 */
    DALGWENIZ_PLACE_OPEN = 6,            /* opening a place that is open */
    DALGWENIZ_PLACE_NOT_OPEN = 7,        /* any other call on a place that is not open */
    DALGWENIZ_RATE_NOT_IN_TARIFF = 8,    /* a rate that does not divide 720,720 (0 too) */
    DALGWENIZ_LINK_OVERBOOKED = 9,       /* the booked total would pass 720,720 */
    DALGWENIZ_SESSION_ACTIVE = 10,       /* closing an active session */
    DALGWENIZ_AHEAD_OF_MARK = 11,        /* closing a session whose virtual time is above the mark */
    DALGWENIZ_LENGTH_OUT_OF_RANGE = 12,  /* a frame of 0 bytes, or of more than 1,536 */
    DALGWENIZ_QUEUE_FULL = 13,           /* 32 frames wait already */
    DALGWENIZ_NONE_ACTIVE = 14,          /* a turn while no session is active */
    DALGWENIZ_TURNS_USED_UP = 15,        /* 2,000,000,000 turns were accepted already */
    DALGWENIZ_KEEP_TOO_HIGH = 16,        /* a cell with a keep above 4 */
    DALGWENIZ_BUFFER_TOO_SHORT = 17      /* a line buffer under 64 bytes */
};

/* Who refused a record. */
enum {
    DALGWENIZ_BY_THE_RECORD = 0,
    DALGWENIZ_BY_THE_CELL = 1
};

#define DALGWENIZ_PLACES 64
#define DALGWENIZ_RECORD 16 /* bytes of a record */
#define DALGWENIZ_LINE 64   /* bytes that a line buffer must have */

/* The cell. What stands in it is the library's affair; the size is checked by c/header.sh. */
#define DALGWENIZ_CELL_BYTES 21520
typedef struct {
    uint64_t inner[DALGWENIZ_CELL_BYTES / 8];
} dalgweniz_cell;

/* Out-structs. They are written only when the answer is 0; what they held before does not matter. Flags are 0 or 1. */

/* What an accepted turn answers. */
typedef struct {
    uint32_t tag;    /* of the frame that left; 0 if none did */
    uint16_t length; /* the bytes that the turn took */
    uint8_t chosen;  /* the place whose turn it was */
    uint8_t sent;    /* 1 if a frame left */
    uint8_t sender;  /* the place that sent it; 0 if none did */
    uint8_t kind;    /* 'n' normal, 'c' credit, 'k' kept, 'x' extra, 'i' idle */
} dalgweniz_turn_out;

/* What became of a record. */
typedef struct {
    size_t line;     /* how many bytes the line has; 0 where the input has ended */
    size_t byte;     /* the byte at fault; 0 where none is */
    uint8_t refusal; /* 0, or the number of the refusal that the line tells of */
    uint8_t layer;   /* who refused; 0 where nobody did */
    uint8_t stop;    /* 1 if the player must stop here: the record was faulty, or the input has ended */
} dalgweniz_fed;

/* How the session of an open place stands. */
typedef struct {
    uint64_t virtual_time;
    int64_t lag;       /* the bytes that it is owed; below 0, what it has had too much */
    int64_t allowance; /* in quarters of a charge */
    size_t waiting;    /* how many frames wait */
    uint32_t rate;
    uint32_t price;    /* of a byte, in virtual time */
    uint8_t good;      /* its channel */
    uint8_t active;    /* a frame waits or it leads */
} dalgweniz_standing;

/* A frame that waits. */
typedef struct {
    uint32_t tag;
    uint16_t length;
    uint8_t there; /* 1 if there is such a frame; without one, tag and length are 0 */
} dalgweniz_frame_out;

/* ---- calls */

/* A new cell with this keep, in quarters. 0 or 16. */
uint8_t dalgweniz_make(dalgweniz_cell *cell, uint8_t keep);

/* Opens a place at a rate of the tariff. 0, 5, 6, 8 or 9. */
uint8_t dalgweniz_open(dalgweniz_cell *cell, uint8_t place, uint32_t rate);

/* Closes a place whose session is not active, once the mark has come up to its virtual time. 0, 5, 7, 10 or 11. */
uint8_t dalgweniz_close(dalgweniz_cell *cell, uint8_t place);

/* Queues a frame of so many bytes that has come for a place. 0, 5, 7, 12 or 13. */
uint8_t dalgweniz_arrive(dalgweniz_cell *cell, uint8_t place, uint32_t tag, uint16_t length);

/* Sets whether the channel of a place is good. 0, 5 or 7. */
uint8_t dalgweniz_report(dalgweniz_cell *cell, uint8_t place, bool good);

/* One turn: the chosen session sends, or hands the turn on, and pays for it. 0, 14 or 15. */
uint8_t dalgweniz_turn(dalgweniz_cell *cell, dalgweniz_turn_out *turn);

/* One record of a recording: reads it, makes its call, and writes its line into the front of a buffer of `room` bytes; the rest
 * of the buffer stays. `bytes` is how many bytes of the record are there: 16, fewer where the input ends inside a record, 0
 * where it has ended. Of more than 16 only the first 16 are read. `number` is that of the record, from 1.
 * 0 or 17; what the record or the cell refused stands in `fed`, and is no refusal of this call. */
uint8_t dalgweniz_feed(dalgweniz_cell *cell, uint64_t number, const uint8_t *record, size_t bytes, uint8_t *line, size_t room,
                       dalgweniz_fed *fed);

/* ---- questions; they change nothing in the cell */

/* How the session of an open place stands. 0, 5 or 7. */
uint8_t dalgweniz_session(const dalgweniz_cell *cell, uint8_t place, dalgweniz_standing *standing);

/* The i-th frame, from 0, that waits at an open place. 0, 5 or 7. */
uint8_t dalgweniz_frame(const dalgweniz_cell *cell, uint8_t place, size_t i, dalgweniz_frame_out *frame);

/* The service that a place, open or not, has had from the credit list, or from the extra list, in bytes times price. 0 or 5: the
 * count of a place that is closed stays until it is opened again. */
uint8_t dalgweniz_count(const dalgweniz_cell *cell, bool extra, uint8_t place, uint64_t *count);

/* The virtual time that the cell has come to. */
uint64_t dalgweniz_mark(const dalgweniz_cell *cell);

/* The rates of all open places together. */
uint32_t dalgweniz_booked(const dalgweniz_cell *cell);

/* How many turns the cell has accepted. */
uint32_t dalgweniz_turns(const dalgweniz_cell *cell);

/* What a leading session earns of each charge, in quarters. */
uint8_t dalgweniz_keep(const dalgweniz_cell *cell);

/* The bytes that the library takes a cell to have: DALGWENIZ_CELL_BYTES, or header and library do not belong together. */
size_t dalgweniz_size(void);

#ifdef __cplusplus
}
#endif

#endif
