/* A controller in miniature: reads a book from standard input and prints its plan, its panel, the start pair after each prefix of its
 * chain, and then the plan of its repacked form, which is a book of version 2. A prefix longer than the chain is the whole chain: a
 * book with spare records prints its last start pair again. */
#include <inttypes.h>
#include <stdio.h>
#include <string.h>

#include "vishalneq.h"

/* One byte more than a book may have, so that longer input is seen to be too long. */
#define INPUT 3073

static void print_starts(const uint8_t *book, size_t length, size_t rules) {
    for (size_t prefix = 0; prefix <= rules; prefix++) {
        int64_t pair[3] = {0, 0, 0};
        size_t restarts = vishalneq_start_after(book, length, prefix, pair, 3);
        printf("start %zu %" PRId64 " %" PRId64 " %" PRId64 " restarts %zu\n", prefix, pair[0], pair[1], pair[2], restarts);
    }
}

static void print_repacked(const uint8_t *book, size_t length) {
    static uint8_t packed[VISHALNEQ_REPACKED], line[VISHALNEQ_LINE];
    size_t bytes = vishalneq_repack(book, length, packed, sizeof packed);
    printf("repacked %zu bytes\n", bytes);
    fwrite(line, 1, vishalneq_plan_line2(packed, bytes, line, sizeof line), stdout);
}

int main(void) {
    static uint8_t book[INPUT], lines[VISHALNEQ_PANEL];
    size_t length = fread(book, 1, sizeof book, stdin);
    size_t end = vishalneq_plan_line(book, length, lines, sizeof lines);
    fwrite(lines, 1, end, stdout);
    if (memcmp(lines, "refused", 7) == 0) {
        return 0;
    }
    end = vishalneq_panel_lines(book, length, lines, sizeof lines);
    fwrite(lines, 1, end, stdout);
    /* of an accepted book, whose header counts the records that follow it */
    print_starts(book, length, length / 12 - 1);
    print_repacked(book, length);
    return 0;
}
