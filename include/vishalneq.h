/* What a controller loads: the functions of libvishalneq.a, which tools/library leaves under target/staticlib.
 *
 * Each takes any bytes as a book and returns. A pointer is lent for the call, with the number of elements that it points to; it is not
 * null, even where that number is 0, and the buffer does not overlap the book. Nothing else is read or written, and nothing is kept
 * between calls.
 *
 * A book is of version 1, records of 12 bytes and at most 255 rules, or of version 2, records of 14 bytes and at most 4,095 rules. Each
 * version has its own functions, those of version 2 with a 2 at the end of their names; a book of the other version is refused.
 *
 * Stack: a call takes at most VISHALNEQ_STACK bytes, whatever the book; a call of a repacker at most VISHALNEQ_REPACK_STACK, one of
 * vishalneq_joint, vishalneq_slip, vishalneq_corners or vishalneq_batch at most VISHALNEQ_LONG_STACK. Measured on x86-64, with the
 * 4,464 that a thread takes for itself: 154,216 for a plan's line, 21,336 for a repacked book, 266,520 for two books joined, 242,744 for
 * the corners of 4,095 rules, 242,920 for a batch, 260,808 for a slip and 119,960 for its check. No memory is allocated. */
#ifndef VISHALNEQ_H
#define VISHALNEQ_H

#include <stddef.h>
#include <stdint.h>

#ifdef __cplusplus
extern "C" {
#endif

/* Room for every line of a plan; for every panel, by version; and for every repacked form, by the version of the book.
 * VISHALNEQ_CORNERS below is room for the corners of every book. */
#define VISHALNEQ_LINE 256
#define VISHALNEQ_PANEL 16384
#define VISHALNEQ_PANEL2 262144
#define VISHALNEQ_REPACKED 3584
#define VISHALNEQ_REPACKED2 57344

#define VISHALNEQ_STACK 163840
#define VISHALNEQ_REPACK_STACK 24576
#define VISHALNEQ_LONG_STACK 294912

/* What a function that writes no line hands back is a count or an answer below this, or a refusal: its number is the quotient by this, its
 * record the remainder. */
#define VISHALNEQ_REFUSED 65536

/* The line of a book's plan, or of its refusal, with its line feed, at the start of `out`. Hands back its length. A buffer of less than
 * VISHALNEQ_LINE bytes is left as it is, and 0 handed back. */
size_t vishalneq_plan_line(const uint8_t *book, size_t book_length, uint8_t *out, size_t out_length);
size_t vishalneq_plan_line2(const uint8_t *book, size_t book_length, uint8_t *out, size_t out_length);

/* The lines of a book's panel, or the line of its refusal, at the start of `out`. Hands back their length, 0 for a panel without rules.
 * A buffer of less than VISHALNEQ_PANEL bytes, for version 2 of less than VISHALNEQ_PANEL2, is left as it is, and 0 handed back. */
size_t vishalneq_panel_lines(const uint8_t *book, size_t book_length, uint8_t *out, size_t out_length);
size_t vishalneq_panel_lines2(const uint8_t *book, size_t book_length, uint8_t *out, size_t out_length);

/* The start pair after the first `prefix` rules of a book's chain, the whole chain if it has fewer: X, Y and D in out[0], out[1] and
 * out[2], three zeros where no pair is allowed. Hands back how many of those rules the start pair before them did not keep, at most as
 * many as the chain has. A buffer of less than three numbers is left as it is. A refused book leaves every buffer as it is, and
 * VISHALNEQ_REFUSED times its number plus its record is handed back. */
size_t vishalneq_start_after(const uint8_t *book, size_t book_length, size_t prefix, int64_t *out, size_t out_length);
size_t vishalneq_start_after2(const uint8_t *book, size_t book_length, size_t prefix, int64_t *out, size_t out_length);

/* The repacked form of a book, always a book of version 2: its n rules in chain order in records 1 to n, at the start of `out`. Hands
 * back how many bytes that takes, 14 times n + 1, and leaves the bytes after them as they are. A refused book, and an output of fewer
 * bytes (number 11, record 0), leave `out` as it is, and VISHALNEQ_REFUSED times the number plus the record is handed back. */
size_t vishalneq_repack(const uint8_t *book, size_t book_length, uint8_t *out, size_t out_length);
size_t vishalneq_repack2(const uint8_t *book, size_t book_length, uint8_t *out, size_t out_length);

/* The line of one plan for two books of version 2, a site's and a tenant's: the site's rules and then the tenant's, under the tenant's
 * objective and of each floor the greater. A witness names a rule by its book, S or T, and its record behind it; a refusal says which book
 * is turned back, "refused site" or "refused tenant", with number and record. The line with its line feed stands at the start of `out`;
 * hands back its length. A buffer of less than VISHALNEQ_LINE bytes is left as it is, and 0 handed back. */
size_t vishalneq_joint(const uint8_t *site, size_t site_length, const uint8_t *tenant, size_t tenant_length, uint8_t *out,
                       size_t out_length);

/* The corners of the region of a book of version 2, smaller x first and then smaller y: the allowed pairs at which two rules or floors that
 * are not parallel hold with equality. X, Y and D of each, signed, little-endian, in 8 bytes, so that a corner takes 24, at the start of
 * `out`. Hands back how many there are, at most as many as rules and floors, and leaves the bytes after them as they are; 0 says that no
 * pair is allowed. A refused book leaves `out` as it is, and VISHALNEQ_REFUSED times its number plus its record is handed back. So does an
 * output of fewer bytes: its number is 11, and in the record's place stands how many corners there are. */
#define VISHALNEQ_CORNER 24
#define VISHALNEQ_CORNERS 98328
size_t vishalneq_corners(const uint8_t *book, size_t book_length, uint8_t *out, size_t out_length);

/* The answers to 1 to 32 objectives for one book of version 2, which is read once; its header's objective plays no part. An objective is 4
 * bytes, p and then q, signed, little-endian. An answer is VISHALNEQ_ANSWER bytes, in the objectives' order, at the start of `out`: the
 * outcome (1 best, 2 unlimited, 3 impossible), seven zeros, then X, Y and D, signed, little-endian, in 8 bytes each: the best pair, the
 * start pair, or zeros. Hands back how many bytes that takes, and leaves the bytes after them as they are. A refused book, objectives that
 * are not 4 to 128 bytes in multiples of 4 or have a -32,768 (number 16, record 0), and an output of fewer bytes (number 11, record 0)
 * leave `out` as it is, and VISHALNEQ_REFUSED times the number plus the record is handed back. */
#define VISHALNEQ_ANSWER 32
size_t vishalneq_batch(const uint8_t *book, size_t book_length, const uint8_t *objectives, size_t objectives_length, uint8_t *out,
                       size_t out_length);

/* A slip, by which a plan is rechecked without planning: VISHALNEQ_SLIP numbers, the outcome (1 best, 2 unlimited, 3 impossible), a count
 * of entries, X, Y, D, dx, dy, a scale, and then three times an entry's code and its weight. Code 0 is floor x, 1 floor y, and r + 1 the
 * rule in record r. What is not used is 0. Books are of version 2. */
#define VISHALNEQ_SLIP 14

/* The slip of a book's plan, with its pair and direction, at the start of `out`. Hands back VISHALNEQ_SLIP. A run of fewer numbers is left
 * as it is, and 0 handed back; a refused book leaves it as it is too, and VISHALNEQ_REFUSED times its number plus its record is handed
 * back. */
size_t vishalneq_slip(const uint8_t *book, size_t book_length, int64_t *out, size_t out_length);

/* Whether a slip of a book is right, whoever wrote it: 1 is yes, 0 is no. A refused book, and a slip with a field out of its range, an
 * entry that is no floor and no rule of the chain, or one named twice (number 17, record 0), hand back VISHALNEQ_REFUSED times the number
 * plus the record; so does a run of another length. Yes for impossible means that no pair is allowed; for unlimited, that pairs are
 * and gains have no top; for best, that the pair is allowed and no allowed pair gains more. */
size_t vishalneq_check(const uint8_t *book, size_t book_length, const int64_t *slip, size_t slip_length);

#ifdef __cplusplus
}
#endif

#endif
