/* Purlthicket for a host in C or C++: how many monomials are left that no listed one divides, from the bytes of an ideal record. Link
   target/staticlib/librecords.a, which `tests/archive records` writes. */
#ifndef PURLTHICKET_H
#define PURLTHICKET_H
#include <stddef.h>
#include <stdint.h>
#ifdef __cplusplus
extern "C" {
#endif

/* The bytes of an answer record, and those of the longest ideal record. */
#define PURLTHICKET_ANSWER_SIZE 26
#define PURLTHICKET_MAX_RECORD 30607

/* The bytes of stack that a call takes at most: 160 KB for its own list and rooms, the rest for a recursion of at most 60 levels. A thread
   that calls must have them left; nothing in the call looks. None of the library's other calls takes more than
   131,072; docs/BENCHMARKS.md has what was measured of each. */
#define PURLTHICKET_STACK 524288

/* The numbers by which the library's calls refuse, one meaning each. purlthicket_dim returns 0, 7, 8, 9, 11, 12, 13 or 14. */
enum purlthicket_number {
    PURLTHICKET_DONE = 0,
    PURLTHICKET_WIDTH = 1,            /* width above 255 */
    PURLTHICKET_COUNT = 2,            /* more than 60 monomials */
    PURLTHICKET_CELLS = 3,            /* the cells are not count times width, or two widths differ */
    PURLTHICKET_PLACE = 4,            /* variable not below the width, or place not below the count */
    PURLTHICKET_EXPONENT = 5,         /* a product's exponent is above 65,535 */
    PURLTHICKET_DIVISION = 6,         /* the divisor does not divide */
    PURLTHICKET_CELL_ROOM = 7,        /* more than 16,384 exponent cells are asked */
    PURLTHICKET_COEFFICIENT_ROOM = 8, /* more than 4,096 coefficients are asked: the degree of the lcm of all is above 4,095 */
    PURLTHICKET_SUM_ROOM = 9,         /* more than 4,096 words are asked: the top degree is above 2,047 */
    PURLTHICKET_DEGREE = 10,          /* degree asked for above 65,536 */
    PURLTHICKET_VALUE = 11,           /* the product of all least pure powers is 2^127 or more */
    PURLTHICKET_RECORD = 12,          /* the bytes are not an ideal record */
    PURLTHICKET_DIMENSION = 13,       /* no dimension: some variable has no pure power, or the top degree would be above 65,536 */
    PURLTHICKET_OUTPUT = 14,          /* the output has fewer than 26 bytes */
    PURLTHICKET_COEFFICIENT = 15      /* a given coefficient is outside -2^61..2^61 */
};

/* Writes the answer record of the ideal record in rec[0..rec_len) to out[0..26) and returns the status that it carries.

   Ideal record: version 1; the length of all that follows, 4 bytes; the width n, 1 byte; the count m, 1 byte; m times n exponents, 2 bytes
   each. The monomials are the minimal ones, each once, the greatest by DegRevLex first. Any other bytes are 12, with a byte missing or one
   too many as well.
   Answer record: version 1; the length 21, 4 bytes; the status, 1 byte; the dimension, 16 bytes; the top degree, 4 bytes. Where the status is
   not 0 both numbers are 0. All numbers are big-endian.

   - The checks, in their order: 14, 12, 13, 11, 7, 8, 9. A list with a unit has dimension 0, and no variables give 1; these ask no room.
   - After 14 nothing is written, whatever the record. Otherwise the 26 bytes are, and the output past them stays as it was.
   - rec and out must not overlap. A null pointer is allowed only with the length 0.
   - The call keeps nothing, allocates nothing and has no state: several threads may call at once. It always returns, but counting is hard in
     the worst case, and there is no limit on its work. */
uint8_t purlthicket_dim(const uint8_t *rec, size_t rec_len, uint8_t *out, size_t out_len);

#ifdef __cplusplus
}
#endif
#endif
