/* Plays a recording from standard input into a cell with keep 2, and prints the line of each record: what cellplay does, in C
 * over the library. c/c_library.sh builds it.
 */
#include <stdio.h>

#include "dalgweniz.h"

#define KEEP 2
#define MOST_RECORDS 1000000

/* Static memory is all zero, as the library wants it before the first call. */
static dalgweniz_cell cell;

int main(void)
{
    uint8_t record[DALGWENIZ_RECORD];
    uint8_t line[DALGWENIZ_LINE];
    dalgweniz_fed fed;

    if (dalgweniz_size() != sizeof cell) {
        fprintf(stderr, "play: header and library do not belong together\n");
        return 2;
    }
    if (dalgweniz_make(&cell, KEEP) != DALGWENIZ_DONE)
        return 2;
    for (uint64_t number = 1; number <= MOST_RECORDS; number++) {
        /* fewer than 16 where the input ends; feed tells a record that was cut off from the end between records */
        size_t bytes = fread(record, 1, sizeof record, stdin);

        if (dalgweniz_feed(&cell, number, record, bytes, line, sizeof line, &fed) != DALGWENIZ_DONE)
            return 2;
        if (fwrite(line, 1, fed.line, stdout) != fed.line)
            return 2;
        if (fed.stop)
            break;
    }
    return fflush(stdout) == 0 && !ferror(stdin) ? 0 : 2;
}
