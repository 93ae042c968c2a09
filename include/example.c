/*
 * The example of eddybridge32.h, whole: which of the codes in the log did not arrive, which arrived that is too many, what a sketch is as
 * bytes, and what a refusal looks like.
 *
 *     bindings/archive
 *     cc -I include include/example.c target/lib/$(uname -m)/libeddybridge32.a -o example
 *
 * It prints what stands in example.out, and `bindings/rust/test` holds it to that.
 */
#include "eddybridge32.h"

#include <stdio.h>

static int missing_codes(void)
{
    enum { T = 3, WORDS = EDDY32_WORDS(T) };
    uint32_t sent[WORDS], got[WORDS], log[3] = {1, 2, 10}, missing[3];

    eddy32_new(T, sent, WORDS);
    eddy32_new(T, got, WORDS);
    for (size_t i = 0; i < 3; i++)
        eddy32_insert(sent, WORDS, log[i]);
    eddy32_insert(got, WORDS, 1);
    eddy32_insert(got, WORDS, 10);
    eddy32_sub_assign(sent, WORDS, got, WORDS);
    eddy32_number found = eddy32_decode_with_log(sent, WORDS, log, 3, missing, 3);

    if (found.refusal != EDDY32_OK)
        return 1;
    printf("found=%zu\n", found.value);
    for (size_t i = 0; i < found.value; i++)
        printf("missing=%u\n", (unsigned)missing[i]);
    return 0;
}

static int surplus_codes(void)
{
    enum { T = 3, WORDS = EDDY32_WORDS(T) };
    uint32_t sent[WORDS], arrived[WORDS], got[4] = {10, 7, 1, 2}, surplus[4];

    eddy32_new(T, sent, WORDS);
    eddy32_new(T, arrived, WORDS);
    eddy32_insert(sent, WORDS, 1);
    eddy32_insert(sent, WORDS, 2);
    eddy32_insert(sent, WORDS, 10);
    for (size_t i = 0; i < 4; i++)
        eddy32_insert(arrived, WORDS, got[i]);
    eddy32_sub_assign(sent, WORDS, arrived, WORDS);
    eddy32_number found = eddy32_decode_surplus_with_log(sent, WORDS, got, 4, surplus, 4);

    if (found.refusal != EDDY32_OK)
        return 1;
    printf("signed count=%ld\n", (long)eddy32_signed_count(sent, WORDS));
    for (size_t i = 0; i < found.value; i++)
        printf("surplus=%u\n", (unsigned)surplus[i]);

    /* What is surplus is what the negated sketch has in it. */
    uint32_t negated[WORDS], again[4];
    if (eddy32_negate(sent, WORDS, negated, WORDS) != EDDY32_OK)
        return 1;
    found = eddy32_decode_with_log(negated, WORDS, got, 4, again, 4);
    return found.refusal != EDDY32_OK || found.value != 1 || again[0] != surplus[0];
}

static int packet(void)
{
    enum { T = 2, WORDS = EDDY32_WORDS(T) };
    uint32_t s[WORDS], again[EDDY32_MAX_WORDS];
    uint8_t buf[EDDY32_PACKET_BYTES(T)];

    eddy32_new(T, s, WORDS);
    eddy32_insert(s, WORDS, 1);
    eddy32_insert(s, WORDS, 10);
    eddy32_number written = eddy32_serialize(s, WORDS, buf, sizeof buf);
    if (written.refusal != EDDY32_OK)
        return 1;
    printf("packet=");
    for (size_t i = 0; i < written.value; i++)
        printf("%02x%s", (unsigned)buf[i], i + 1 < written.value ? " " : "\n");

    /* Whoever reads a packet need not know its threshold: EDDY32_MAX_WORDS words have room for it. It is the same sketch, word for word. */
    if (eddy32_deserialize(buf, written.value, again, EDDY32_MAX_WORDS) != EDDY32_OK)
        return 1;
    for (size_t i = 0; i < WORDS; i++)
        if (again[i] != s[i])
            return 1;
    return 0;
}

static int refusal(void)
{
    enum { T = 2, WORDS = EDDY32_WORDS(T) };
    uint32_t s[WORDS];

    eddy32_new(T, s, WORDS);
    s[4] = EDDY32_MODULUS; /* No sum is the modulus or more: the words are no sketch, and they stay as they are. */
    printf("refusal=%u\n", (unsigned)eddy32_insert(s, WORDS, 7));
    return s[1] != 0 || s[4] != EDDY32_MODULUS;
}

int main(void)
{
    return missing_codes() || surplus_codes() || packet() || refusal();
}
