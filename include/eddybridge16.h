/*
 * eddybridge16.h: power-sum sketches of 16-bit codes, for C and C++.
 *
 * A sketch is a small summary of a collection of codes. Keep one of what was sent and one of what arrived, subtract the second from the
 * first, and decode: out of the log of what was sent come the entries that did not arrive. Where more arrived than was sent, decode the
 * surplus: out of the log of what arrived come the entries that are too many.
 *
 * The functions are those of the crate exports16_c, whose contracts are proved. eddybridge32.h has the same calls for 32-bit codes, and a
 * program may use both.
 *
 *
 * How to link
 *
 * `bindings/archive` proves the crates of both widths and writes libeddybridge32.a and libeddybridge16.a to target/lib/MACHINE, MACHINE
 * being what `uname -m` says. Link libeddybridge16.a after the program's own objects; it needs nothing but the C library.
 *
 *     bindings/archive
 *     cc -I include program.c target/lib/$(uname -m)/libeddybridge16.a -o program
 *
 * The Rattle kit makes archives for x86-64 Linux, for processors of x86-64-v2 and above, and such an archive does not link on Arm. There
 * `bindings/archive` goes by way of `bench/native-kit`, if the kit's compiler runs on that machine: the same proved functions, through the
 * same compiler, for the machine at hand. Otherwise it makes nothing, and says so.
 *
 *
 * Codes and residues
 *
 * A code is any uint16_t. Its residue is what EDDY16_MODULUS, a prime, leaves of it: the code itself below the modulus, otherwise the code
 * minus the modulus, so that 65535 has the residue 14. Every function takes codes as they are and reduces them first.
 *
 * A residue that is answered alone is a uint32_t, below the modulus, so that nothing has to be known of what stands above the 16 bits of an
 * answer. Within a struct it is a uint16_t.
 *
 *
 * The words of a sketch
 *
 * A word is a uint16_t. A sketch of threshold T is the first EDDY16_WORDS(T) words, 5 + T, of an array that the caller owns:
 *
 *     word 0           the threshold T, from 1 to EDDY16_MAX_THRESHOLD: how many entries can be found missing
 *     word 1           the low 16 bits of the count, which is kept modulo 2^32
 *     word 2           the high 16 bits of the count
 *     word 3           1 if there is a last code, 0 if there is none
 *     word 4           the residue of the last code, 0 if there is none
 *     words 5 to T + 4 the T sums, each below the modulus
 *
 * The array has at least these words, and is passed with its length or any other from 5 + T on. What stands behind the 5 + T words is
 * neither read nor written. An array of EDDY16_MAX_WORDS words has room for every sketch.
 *
 * Words that do not keep to this are no sketch, and neither are fewer than the 5 + T that word 0 says, nor fewer than 5: refusal 12. So every
 * sketch has one form in words, and two sketches are equal where their words are. They may be copied, kept and compared like any others.
 *
 * After a subtraction the count is a difference, and eddy16_signed_count reads it as a signed number: below 2^31 the count is itself,
 * otherwise the count minus 2^32. It is negative where up to 2^31 codes more were taken out than were put in.
 *
 *
 * Slices
 *
 * A slice is passed as a pointer and the number of its elements, not of its bytes. The pointer is aligned, is not NULL even where the number
 * is 0, and is good for that many elements. What is passed without `const` overlaps nothing else that is passed to the same call. No
 * function keeps a pointer, allocates, or has state of its own, so calls on different memory may run at the same time.
 *
 *
 * Refusals
 *
 * Every call takes every input. A call that cannot do what it is asked answers the number of a refusal, one of the constants below, and
 * EDDY16_OK, which is 0, where nothing is refused. Of several that are due, the first in the order that stands beside the function is
 * answered: 12 before all others, 5 after all others. Where a call is refused, every other number of its answer is 0, and all that was lent
 * to it stays as it was. The numbers are those of eddybridge32.h.
 *
 *
 * When the list is exact
 *
 * A fresh sketch has nothing in it. Inserting a code puts its residue in, and removing a code takes its residue out. Subtracting a sketch
 * takes out what was put into that one, and puts in what was taken out of it. A sketch read from a packet goes on from the one written.
 *
 * eddy16_decode_with_log is exact as long as
 *
 *     each residue was taken out at most as often as it was put in, and
 *     at most T are left in all, repeats counted, T being the threshold of the sketch that is decoded.
 *
 * Then it lists the entries of the log whose residue is left, in the log's order, and no others. An entry that stands several times in the
 * log is listed each time. Where more than T are left, and fewer than 2^32, it is refused by 4. Where a residue was taken out more often
 * than it was put in, no sketch can tell, and what is listed means nothing.
 *
 * eddy16_decode_surplus_with_log is exact with the roles changed, as long as
 *
 *     each residue was put in at most as often as it was taken out, and
 *     at most T are surplus in all, repeats counted.
 *
 * Then it lists the entries of the got codes whose residue was taken out more often than it was put in, in their order, and no others, and
 * the signed count is minus the number of residues that are surplus, repeats counted. An entry that stands several times among the got codes
 * is listed each time. Where more than T are surplus, and at most 2^31, it is refused by 4.
 *
 * Where one residue was put in more often than it was taken out, and another less often, neither promise holds: what is listed means nothing.
 *
 *
 * An example (include/example16.c is the whole program)
 *
 *     enum { T = 3, WORDS = EDDY16_WORDS(T) };
 *     uint16_t sent[WORDS], got[WORDS], log[3] = {1, 2, 10}, missing[3];
 *
 *     eddy16_new(T, sent, WORDS);
 *     eddy16_new(T, got, WORDS);
 *     for (size_t i = 0; i < 3; i++)
 *         eddy16_insert(sent, WORDS, log[i]);
 *     eddy16_insert(got, WORDS, 1);
 *     eddy16_insert(got, WORDS, 10);
 *     eddy16_sub_assign(sent, WORDS, got, WORDS);
 *     eddy16_number found = eddy16_decode_with_log(sent, WORDS, log, 3, missing, 3);
 *
 * Then found.refusal is 0, found.value is 1, and missing[0] is 2.
 */
#ifndef EDDYBRIDGE16_H
#define EDDYBRIDGE16_H

#include <stddef.h>
#include <stdint.h>

#ifdef __cplusplus
extern "C" {
#endif

/* The version of this header and of the functions. */
#define EDDY16_VERSION "0.1.0"
#define EDDY16_VERSION_MAJOR 0
#define EDDY16_VERSION_MINOR 1
#define EDDY16_VERSION_PATCH 0

/* The prime, 2^16 - 15. */
#define EDDY16_MODULUS 65521u

/* The greatest threshold, and the most coefficients that eddy16_eval_precompute takes. */
#define EDDY16_MAX_THRESHOLD 32

/* The words of a sketch of threshold t, and of one of the greatest threshold. */
#define EDDY16_WORDS(t) (5 + (t))
#define EDDY16_MAX_WORDS EDDY16_WORDS(EDDY16_MAX_THRESHOLD)

/* The bytes of the packet of a sketch of threshold t, and of one of the greatest threshold. */
#define EDDY16_PACKET_BYTES(t) (6 + 2 * (t))
#define EDDY16_MAX_PACKET_BYTES EDDY16_PACKET_BYTES(EDDY16_MAX_THRESHOLD)


/* ---- refusals; 9 and 10 are the desk program's alone ---- */

/* Nothing is refused. */
#define EDDY16_OK 0

/* The threshold is 0 or above EDDY16_MAX_THRESHOLD. */
#define EDDY16_THRESHOLD_OUT_OF_RANGE 1

/* The thresholds differ. */
#define EDDY16_THRESHOLDS_DIFFER 2

/* There is no last code. */
#define EDDY16_NO_LAST_CODE 3

/* The count is above the threshold; for a decoding of the surplus, the signed count is negative and its size is above the threshold; or
   eddy16_eval_precompute has more than EDDY16_MAX_THRESHOLD coefficients. */
#define EDDY16_COUNT_ABOVE_THRESHOLD 4

/* A slice to write to is too short: it has fewer than 5 + T words for a sketch, fewer places than the count for coefficients or than the
   log or the got codes for a decoding, or fewer bytes than the packet. */
#define EDDY16_BUFFER_TOO_SHORT 5

/* Fewer than 6 bytes. */
#define EDDY16_PACKET_TOO_SHORT 6

/* No sum, or more than EDDY16_MAX_THRESHOLD. */
#define EDDY16_SUMS_OUT_OF_RANGE 7

/* A sum that is read, or a coefficient, is the modulus or more. */
#define EDDY16_NOT_REDUCED 8

/* No coefficient. */
#define EDDY16_NO_COEFFICIENT 11

/* A sketch given is not well formed. */
#define EDDY16_NOT_WELL_FORMED 12


/* ---- answers of two numbers ---- */

/* How many numbers or bytes were written; or a refusal, and 0. */
typedef struct {
    uint32_t refusal;
    size_t value;
} eddy16_number;

/* A value; or a refusal, and 0. */
typedef struct {
    uint32_t refusal;
    uint16_t value;
} eddy16_value;

/* A power, and how many field multiplications were made for it. */
typedef struct {
    uint16_t value;
    uint32_t multiplications;
} eddy16_power;


/* ---- sketches ---- */

/* Makes a fresh sketch in the first words of out: sums 0, count 0, no last code. Refusals: 1, 5. */
uint32_t eddy16_new(size_t threshold, uint16_t *out, size_t out_len);

/* 1 if s begins with the words of a well-formed sketch, otherwise 0. */
uint32_t eddy16_well_formed(const uint16_t *s, size_t s_len);

/* Inserts a code of residue x: sum k grows by x^k, the count by 1, and x becomes the last code. Refusal: 12. */
uint32_t eddy16_insert(uint16_t *s, size_t s_len, uint16_t code);

/* Removes a code of residue x: sum k falls by x^k, the count by 1, and a last code that is x becomes none. Refusal: 12. */
uint32_t eddy16_remove(uint16_t *s, size_t s_len, uint16_t code);

/* Subtracts rhs from s, in s: sums and counts are subtracted, and there is no last code. Refusals: 12 for either, 2. */
uint32_t eddy16_sub_assign(uint16_t *s, size_t s_len, const uint16_t *rhs, size_t rhs_len);

/* Writes s minus rhs to the first words of out. The smaller threshold is kept and the further sums are dropped. Refusals: 12 for either, 5. */
uint32_t eddy16_sub(const uint16_t *s, size_t s_len, const uint16_t *rhs, size_t rhs_len, uint16_t *out, size_t out_len);

/* Writes the negative of s to the first words of out: the same threshold, each sum and the count negated, and no last code. Refusals: 12,
   5. */
uint32_t eddy16_negate(const uint16_t *s, size_t s_len, uint16_t *out, size_t out_len);

/* The count that words 1 and 2 of s say, as a signed number from -2147483648 to 2147483647; 0 where s has fewer than 5 words. s need be no
   well-formed sketch, and nothing is refused. */
int32_t eddy16_signed_count(const uint16_t *s, size_t s_len);


/* ---- coefficients, values and decoding ---- */

/* Writes the coefficients a1 .. an of x^n + a1 x^(n-1) + .. + an, n being the count, to the front of coeffs; later places stay. The value is
   n. Refusals: 12, 4, 5. */
eddy16_number eddy16_to_coeffs(const uint16_t *s, size_t s_len, uint16_t *coeffs, size_t coeffs_len);

/* The value of x^n + a1 x^(n-1) + .. + an at the residue of x, for n coefficients. Refusals: 11, 8. */
eddy16_value eddy16_eval(const uint16_t *coeffs, size_t coeffs_len, uint16_t x);

/* The same value, for at most EDDY16_MAX_THRESHOLD coefficients: all products are formed first, and their sum is reduced once. Refusals: 11,
   4, 8. */
eddy16_value eddy16_eval_precompute(const uint16_t *coeffs, size_t coeffs_len, uint16_t x);

/* Writes the entries of the log at which the polynomial of the coefficients is 0 to the front of out, as they stand in the log, in its order,
   repeats kept; nothing where the count is 0. Later places stay. out needs as many places as the log has entries, whatever is found. The
   value is how many were written. Refusals: 12, 4, 5. */
eddy16_number eddy16_decode_with_log(const uint16_t *s, size_t s_len, const uint16_t *log, size_t log_len, uint16_t *out, size_t out_len);

/* Where the signed count is negative, writes what eddy16_decode_with_log writes for the negated sketch with `got` as its log; nothing where
   the signed count is 0 or more, which is never refused by 4. Later places stay. out needs as many places as `got` has entries, whatever is
   found and whatever the count. The value is how many were written. Refusals: 12, 4, 5. */
eddy16_number eddy16_decode_surplus_with_log(const uint16_t *s, size_t s_len, const uint16_t *got, size_t got_len, uint16_t *out, size_t out_len);


/* ---- packets ---- */

/* Writes the sketch as EDDY16_PACKET_BYTES(T) bytes, each number lowest byte first: the count in four bytes, the last code and each sum in
   two. Later bytes stay. The value is the number of bytes. Refusals: 12, 3, 5. */
eddy16_number eddy16_serialize(const uint16_t *s, size_t s_len, uint8_t *buf, size_t buf_len);

/* The same with at most `hint` sums; the count stays that of all. Refusals: 12, 3, 5. */
eddy16_number eddy16_serialize_with_hint(const uint16_t *s, size_t s_len, uint8_t *buf, size_t buf_len, size_t hint);

/* Reads a sketch to the first words of out. Its threshold is the number of sums that the bytes hold; one trailing byte is ignored, and the
   last code is reduced. Refusals: 6, 7, 8, 5. */
uint32_t eddy16_deserialize(const uint8_t *buf, size_t buf_len, uint16_t *out, size_t out_len);


/* ---- the field of codes modulo EDDY16_MODULUS; every answer is a residue ---- */

/* The residue of c. */
uint32_t eddy16_field_reduce(uint16_t c);

/* a + b. */
uint32_t eddy16_field_add(uint16_t a, uint16_t b);

/* a - b. */
uint32_t eddy16_field_sub(uint16_t a, uint16_t b);

/* -a. */
uint32_t eddy16_field_neg(uint16_t a);

/* a times b. */
uint32_t eddy16_field_mul(uint16_t a, uint16_t b);

/* The inverse of a; 0 for 0. */
uint32_t eddy16_field_inv(uint16_t a);

/* a to the power e, which is not reduced; 1 for the exponent 0. */
eddy16_power eddy16_field_pow(uint16_t a, uint16_t e);

/* The number of multiplications of eddy16_field_pow alone. */
uint32_t eddy16_field_pow_multiplications(uint16_t e);

#ifdef __cplusplus
}
#endif

#endif
