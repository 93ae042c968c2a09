/*
 * eddybridge32.h: power-sum sketches of 32-bit codes, for C and C++.
 *
 * A sketch is a small summary of a collection of codes. Keep one of what was sent and one of what arrived, subtract the second from the
 * first, and decode: out of the log of what was sent come the entries that did not arrive. Where more arrived than was sent, decode the
 * surplus: out of the log of what arrived come the entries that are too many.
 *
 * The functions are those of the crate exports32_c, whose contracts are proved. eddybridge16.h has the same calls for 16-bit codes, and a
 * program may use both.
 *
 *
 * How to link
 *
 * `bindings/archive` proves the crates of both widths and writes libeddybridge32.a and libeddybridge16.a to target/lib/MACHINE, MACHINE
 * being what `uname -m` says. Link libeddybridge32.a after the program's own objects; it needs nothing but the C library.
 *
 *     bindings/archive
 *     cc -I include program.c target/lib/$(uname -m)/libeddybridge32.a -o program
 *
 * The Rattle kit makes archives for x86-64 Linux, for processors of x86-64-v2 and above, and such an archive does not link on Arm. There
 * `bindings/archive` goes by way of `bench/native-kit`, if the kit's compiler runs on that machine: the same proved functions, through the
 * same compiler, for the machine at hand. Otherwise it makes nothing, and says so.
 *
 *
 * Codes and residues
 *
 * A code is any uint32_t. Its residue is what EDDY32_MODULUS, a prime, leaves of it: the code itself below the modulus, otherwise the code
 * minus the modulus. Every function takes codes as they are and reduces them first.
 *
 *
 * The words of a sketch
 *
 * A sketch of threshold T is the first EDDY32_WORDS(T) words, 4 + T, of an array that the caller owns:
 *
 *     word 0           the threshold T, from 1 to EDDY32_MAX_THRESHOLD: how many entries can be found missing
 *     word 1           the count, modulo 2^32
 *     word 2           1 if there is a last code, 0 if there is none
 *     word 3           the residue of the last code, 0 if there is none
 *     words 4 to T + 3 the T sums, each below the modulus
 *
 * The array has at least these words, and is passed with its length or any other from 4 + T on. What stands behind the 4 + T words is
 * neither read nor written. An array of EDDY32_MAX_WORDS words has room for every sketch.
 *
 * Words that do not keep to this are no sketch, and neither are fewer than the 4 + T that word 0 says, nor fewer than 4: refusal 12. So every
 * sketch has one form in words, and two sketches are equal where their words are. They may be copied, kept and compared like any others.
 *
 * After a subtraction the count is a difference, and eddy32_signed_count reads it as a signed number: below 2^31 the count is itself,
 * otherwise the count minus 2^32. It is negative where up to 2^31 codes more were taken out than were put in.
 *
 *
 * Slices
 *
 * A slice is passed as a pointer and the number of its elements, not of its bytes. The pointer is aligned, is not NULL even where the number
 * is 0, and is good for that many elements. What is passed without `const` overlaps nothing else that is passed to the same call. No
 * function keeps a pointer, allocates, or has state of its own, so calls on different memory may run at the same time.
 *
 *
 * Refusals
 *
 * Every call takes every input. A call that cannot do what it is asked answers the number of a refusal, one of the constants below, and
 * EDDY32_OK, which is 0, where nothing is refused. Of several that are due, the first in the order that stands beside the function is
 * answered: 12 before all others, 5 after all others. Where a call is refused, every other number of its answer is 0, and all that was lent
 * to it stays as it was. The numbers are those of eddybridge16.h.
 *
 *
 * When the list is exact
 *
 * A fresh sketch has nothing in it. Inserting a code puts its residue in, and removing a code takes its residue out. Subtracting a sketch
 * takes out what was put into that one, and puts in what was taken out of it. A sketch read from a packet goes on from the one written.
 *
 * eddy32_decode_with_log is exact as long as
 *
 *     each residue was taken out at most as often as it was put in, and
 *     at most T are left in all, repeats counted, T being the threshold of the sketch that is decoded.
 *
 * Then it lists the entries of the log whose residue is left, in the log's order, and no others. An entry that stands several times in the
 * log is listed each time. Where more than T are left, and fewer than 2^32, it is refused by 4. Where a residue was taken out more often
 * than it was put in, no sketch can tell, and what is listed means nothing.
 *
 * eddy32_decode_surplus_with_log is exact with the roles changed, as long as
 *
 *     each residue was put in at most as often as it was taken out, and
 *     at most T are surplus in all, repeats counted.
 *
 * Then it lists the entries of the got codes whose residue was taken out more often than it was put in, in their order, and no others, and
 * the signed count is minus the number of residues that are surplus, repeats counted. An entry that stands several times among the got codes
 * is listed each time. Where more than T are surplus, and at most 2^31, it is refused by 4.
 *
 * Where one residue was put in more often than it was taken out, and another less often, neither promise holds: what is listed means nothing.
 *
 *
 * An example (include/example.c is the whole program)
 *
 *     enum { T = 3, WORDS = EDDY32_WORDS(T) };
 *     uint32_t sent[WORDS], got[WORDS], log[3] = {1, 2, 10}, missing[3];
 *
 *     eddy32_new(T, sent, WORDS);
 *     eddy32_new(T, got, WORDS);
 *     for (size_t i = 0; i < 3; i++)
 *         eddy32_insert(sent, WORDS, log[i]);
 *     eddy32_insert(got, WORDS, 1);
 *     eddy32_insert(got, WORDS, 10);
 *     eddy32_sub_assign(sent, WORDS, got, WORDS);
 *     eddy32_number found = eddy32_decode_with_log(sent, WORDS, log, 3, missing, 3);
 *
 * Then found.refusal is 0, found.value is 1, and missing[0] is 2.
 */
#ifndef EDDYBRIDGE32_H
#define EDDYBRIDGE32_H

#include <stddef.h>
#include <stdint.h>

#ifdef __cplusplus
extern "C" {
#endif

/* The version of this header and of the functions. */
#define EDDY32_VERSION "0.1.0"
#define EDDY32_VERSION_MAJOR 0
#define EDDY32_VERSION_MINOR 1
#define EDDY32_VERSION_PATCH 0

/* The prime, 2^32 - 5. */
#define EDDY32_MODULUS 4294967291u

/* The greatest threshold. */
#define EDDY32_MAX_THRESHOLD 32

/* The words of a sketch of threshold t, and of one of the greatest threshold. */
#define EDDY32_WORDS(t) (4 + (t))
#define EDDY32_MAX_WORDS EDDY32_WORDS(EDDY32_MAX_THRESHOLD)

/* The bytes of the packet of a sketch of threshold t, and of one of the greatest threshold. */
#define EDDY32_PACKET_BYTES(t) (8 + 4 * (t))
#define EDDY32_MAX_PACKET_BYTES EDDY32_PACKET_BYTES(EDDY32_MAX_THRESHOLD)


/* ---- refusals; 9 and 10 are the desk program's alone ---- */

/* Nothing is refused. */
#define EDDY32_OK 0

/* The threshold is 0 or above EDDY32_MAX_THRESHOLD. */
#define EDDY32_THRESHOLD_OUT_OF_RANGE 1

/* The thresholds differ. */
#define EDDY32_THRESHOLDS_DIFFER 2

/* There is no last code. */
#define EDDY32_NO_LAST_CODE 3

/* The count is above the threshold; for a decoding of the surplus, the signed count is negative and its size is above the threshold. */
#define EDDY32_COUNT_ABOVE_THRESHOLD 4

/* A slice to write to is too short: it has fewer than 4 + T words for a sketch, fewer places than the count for coefficients or than the
   log or the got codes for a decoding, or fewer bytes than the packet. */
#define EDDY32_BUFFER_TOO_SHORT 5

/* Fewer than 8 bytes. */
#define EDDY32_PACKET_TOO_SHORT 6

/* No sum, or more than EDDY32_MAX_THRESHOLD. */
#define EDDY32_SUMS_OUT_OF_RANGE 7

/* A sum that is read, or a coefficient, is the modulus or more. */
#define EDDY32_NOT_REDUCED 8

/* No coefficient. */
#define EDDY32_NO_COEFFICIENT 11

/* A sketch given is not well formed. */
#define EDDY32_NOT_WELL_FORMED 12


/* ---- answers of two numbers ---- */

/* How many numbers or bytes were written; or a refusal, and 0. */
typedef struct {
    uint32_t refusal;
    size_t value;
} eddy32_number;

/* A value; or a refusal, and 0. */
typedef struct {
    uint32_t refusal;
    uint32_t value;
} eddy32_value;

/* A power, and how many field multiplications were made for it. */
typedef struct {
    uint32_t value;
    uint32_t multiplications;
} eddy32_power;


/* ---- sketches ---- */

/* Makes a fresh sketch in the first words of out: sums 0, count 0, no last code. Refusals: 1, 5. */
uint32_t eddy32_new(size_t threshold, uint32_t *out, size_t out_len);

/* 1 if s begins with the words of a well-formed sketch, otherwise 0. */
uint32_t eddy32_well_formed(const uint32_t *s, size_t s_len);

/* Inserts a code of residue x: sum k grows by x^k, the count by 1, and x becomes the last code. Refusal: 12. */
uint32_t eddy32_insert(uint32_t *s, size_t s_len, uint32_t code);

/* Removes a code of residue x: sum k falls by x^k, the count by 1, and a last code that is x becomes none. Refusal: 12. */
uint32_t eddy32_remove(uint32_t *s, size_t s_len, uint32_t code);

/* Subtracts rhs from s, in s: sums and counts are subtracted, and there is no last code. Refusals: 12 for either, 2. */
uint32_t eddy32_sub_assign(uint32_t *s, size_t s_len, const uint32_t *rhs, size_t rhs_len);

/* Writes s minus rhs to the first words of out. The smaller threshold is kept and the further sums are dropped. Refusals: 12 for either, 5. */
uint32_t eddy32_sub(const uint32_t *s, size_t s_len, const uint32_t *rhs, size_t rhs_len, uint32_t *out, size_t out_len);

/* Writes the negative of s to the first words of out: the same threshold, each sum and the count negated, and no last code. Refusals: 12,
   5. */
uint32_t eddy32_negate(const uint32_t *s, size_t s_len, uint32_t *out, size_t out_len);

/* The count that word 1 of s says, as a signed number from -2147483648 to 2147483647; 0 where s has fewer than 4 words. s need be no
   well-formed sketch, and nothing is refused. */
int32_t eddy32_signed_count(const uint32_t *s, size_t s_len);


/* ---- coefficients, values and decoding ---- */

/* Writes the coefficients a1 .. an of x^n + a1 x^(n-1) + .. + an, n being the count, to the front of coeffs; later places stay. The value is
   n. Refusals: 12, 4, 5. */
eddy32_number eddy32_to_coeffs(const uint32_t *s, size_t s_len, uint32_t *coeffs, size_t coeffs_len);

/* The value of x^n + a1 x^(n-1) + .. + an at the residue of x, for n coefficients. Refusals: 11, 8. */
eddy32_value eddy32_eval(const uint32_t *coeffs, size_t coeffs_len, uint32_t x);

/* Writes the entries of the log at which the polynomial of the coefficients is 0 to the front of out, as they stand in the log, in its order,
   repeats kept; nothing where the count is 0. Later places stay. out needs as many places as the log has entries, whatever is found. The
   value is how many were written. Refusals: 12, 4, 5. */
eddy32_number eddy32_decode_with_log(const uint32_t *s, size_t s_len, const uint32_t *log, size_t log_len, uint32_t *out, size_t out_len);

/* Where the signed count is negative, writes what eddy32_decode_with_log writes for the negated sketch with `got` as its log; nothing where
   the signed count is 0 or more, which is never refused by 4. Later places stay. out needs as many places as `got` has entries, whatever is
   found and whatever the count. The value is how many were written. Refusals: 12, 4, 5. */
eddy32_number eddy32_decode_surplus_with_log(const uint32_t *s, size_t s_len, const uint32_t *got, size_t got_len, uint32_t *out, size_t out_len);


/* ---- packets ---- */

/* Writes the sketch as EDDY32_PACKET_BYTES(T) bytes, each number lowest byte first: count, last code, sums. Later bytes stay. The value is
   the number of bytes. Refusals: 12, 3, 5. */
eddy32_number eddy32_serialize(const uint32_t *s, size_t s_len, uint8_t *buf, size_t buf_len);

/* The same with at most `hint` sums; the count stays that of all. Refusals: 12, 3, 5. */
eddy32_number eddy32_serialize_with_hint(const uint32_t *s, size_t s_len, uint8_t *buf, size_t buf_len, size_t hint);

/* Reads a sketch to the first words of out. Its threshold is the number of sums that the bytes hold; up to three trailing bytes are ignored,
   and the last code is reduced. Refusals: 6, 7, 8, 5. */
uint32_t eddy32_deserialize(const uint8_t *buf, size_t buf_len, uint32_t *out, size_t out_len);


/* ---- the field of codes modulo EDDY32_MODULUS; every answer is a residue ---- */

/* The residue of c. */
uint32_t eddy32_field_reduce(uint32_t c);

/* a + b. */
uint32_t eddy32_field_add(uint32_t a, uint32_t b);

/* a - b. */
uint32_t eddy32_field_sub(uint32_t a, uint32_t b);

/* -a. */
uint32_t eddy32_field_neg(uint32_t a);

/* a times b. */
uint32_t eddy32_field_mul(uint32_t a, uint32_t b);

/* The inverse of a; 0 for 0. */
uint32_t eddy32_field_inv(uint32_t a);

/* a to the power e, which is not reduced; 1 for the exponent 0. */
eddy32_power eddy32_field_pow(uint32_t a, uint32_t e);

/* The number of multiplications of eddy32_field_pow alone. */
uint32_t eddy32_field_pow_multiplications(uint32_t e);

#ifdef __cplusplus
}
#endif

#endif
