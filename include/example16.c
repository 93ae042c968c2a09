/*
 * The example of eddybridge16.h, whole: which of the codes in the log did not arrive, which arrived that is too many, what a sketch is as
 * bytes, what both forms of evaluation answer, and what a refusal looks like.
 *
 *     bindings/archive
 *     cc -I include include/example16.c target/lib/$(uname -m)/libeddybridge16.a -o example16
 *
 * It prints what stands in example16.out, and `bindings/rust/test` holds it to that.
 */
#include "eddybridge16.h"

#include <stdio.h>

static int missing_codes(void)
{
    enum { T = 3, WORDS = EDDY16_WORDS(T) };
    uint16_t sent[WORDS], got[WORDS], log[3] = {1, 2, 10}, missing[3];

    eddy16_new(T, sent, WORDS);
    eddy16_new(T, got, WORDS);
    for (size_t i = 0; i < 3; i++)
        eddy16_insert(sent, WORDS, log[i]);
    eddy16_insert(got, WORDS, 1);
    eddy16_insert(got, WORDS, 10);
    eddy16_sub_assign(sent, WORDS, got, WORDS);
    eddy16_number found = eddy16_decode_with_log(sent, WORDS, log, 3, missing, 3);

    if (found.refusal != EDDY16_OK)
        return 1;
    printf("found=%zu\n", found.value);
    for (size_t i = 0; i < found.value; i++)
        printf("missing=%u\n", (unsigned)missing[i]);
    return 0;
}

static int surplus_codes(void)
{
    enum { T = 3, WORDS = EDDY16_WORDS(T) };
    uint16_t sent[WORDS], arrived[WORDS], got[4] = {10, 7, 1, 2}, surplus[4];

    eddy16_new(T, sent, WORDS);
    eddy16_new(T, arrived, WORDS);
    eddy16_insert(sent, WORDS, 1);
    eddy16_insert(sent, WORDS, 2);
    eddy16_insert(sent, WORDS, 10);
    for (size_t i = 0; i < 4; i++)
        eddy16_insert(arrived, WORDS, got[i]);
    eddy16_sub_assign(sent, WORDS, arrived, WORDS);
    eddy16_number found = eddy16_decode_surplus_with_log(sent, WORDS, got, 4, surplus, 4);

    if (found.refusal != EDDY16_OK)
        return 1;
    printf("signed count=%ld\n", (long)eddy16_signed_count(sent, WORDS));
    for (size_t i = 0; i < found.value; i++)
        printf("surplus=%u\n", (unsigned)surplus[i]);

    /* What is surplus is what the negated sketch has in it. */
    uint16_t negated[WORDS], again[4];
    if (eddy16_negate(sent, WORDS, negated, WORDS) != EDDY16_OK)
        return 1;
    found = eddy16_decode_with_log(negated, WORDS, got, 4, again, 4);
    return found.refusal != EDDY16_OK || found.value != 1 || again[0] != surplus[0];
}

static int packet(void)
{
    enum { T = 2, WORDS = EDDY16_WORDS(T) };
    uint16_t s[WORDS], again[EDDY16_MAX_WORDS];
    uint8_t buf[EDDY16_PACKET_BYTES(T)];

    eddy16_new(T, s, WORDS);
    eddy16_insert(s, WORDS, 1);
    eddy16_insert(s, WORDS, 65535); /* Its residue is 14. */
    eddy16_number written = eddy16_serialize(s, WORDS, buf, sizeof buf);
    if (written.refusal != EDDY16_OK)
        return 1;
    printf("packet=");
    for (size_t i = 0; i < written.value; i++)
        printf("%02x%s", (unsigned)buf[i], i + 1 < written.value ? " " : "\n");

    /* Whoever reads a packet need not know its threshold: EDDY16_MAX_WORDS words have room for it. It is the same sketch, word for word. */
    if (eddy16_deserialize(buf, written.value, again, EDDY16_MAX_WORDS) != EDDY16_OK)
        return 1;
    for (size_t i = 0; i < WORDS; i++)
        if (again[i] != s[i])
            return 1;
    return 0;
}

static int evaluation(void)
{
    uint16_t coeffs[2] = {(uint16_t)eddy16_field_neg(22), 120}; /* x^2 - 22x + 120 */
    eddy16_value plain = eddy16_eval(coeffs, 2, 11);
    eddy16_value once = eddy16_eval_precompute(coeffs, 2, 11);

    if (plain.refusal != EDDY16_OK || once.refusal != EDDY16_OK)
        return 1;
    printf("value=%u\nreduced once=%u\n", (unsigned)plain.value, (unsigned)once.value);
    return 0;
}

static int refusal(void)
{
    enum { T = 2, WORDS = EDDY16_WORDS(T) };
    uint16_t s[WORDS];

    eddy16_new(T, s, WORDS);
    s[5] = EDDY16_MODULUS; /* No sum is the modulus or more: the words are no sketch, and they stay as they are. */
    printf("refusal=%u\n", (unsigned)eddy16_insert(s, WORDS, 7));
    return s[1] != 0 || s[5] != EDDY16_MODULUS;
}

int main(void)
{
    return missing_codes() || surplus_codes() || packet() || evaluation() || refusal();
}
