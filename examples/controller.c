/* A controller that loads a plan only after it has checked the plan's slip: it reads a book of version 2 from standard input, takes the
 * planner's slip, has it checked, and prints what it loads. Here both come from the same library; a partner takes the slip from elsewhere
 * and calls vishalneq_check alone. */
#include "vishalneq.h"

#include <inttypes.h>
#include <stdio.h>

int main(void) {
    static uint8_t book[57345];
    size_t length = fread(book, 1, sizeof book, stdin);
    int64_t slip[VISHALNEQ_SLIP];
    size_t written = vishalneq_slip(book, length, slip, VISHALNEQ_SLIP);
    if (written != VISHALNEQ_SLIP) {
        printf("refused %zu %zu\n", written / VISHALNEQ_REFUSED, written % VISHALNEQ_REFUSED);
        return 1;
    }
    if (vishalneq_check(book, length, slip, VISHALNEQ_SLIP) != 1) {
        puts("the slip is not right");
        return 1;
    }
    if (slip[0] == 3) {
        puts("nothing to load: no pair is allowed");
        return 1;
    }
    printf("loads %" PRId64 "/%" PRId64 " and %" PRId64 "/%" PRId64 "\n", slip[2], slip[4], slip[3], slip[4]);
    return 0;
}
