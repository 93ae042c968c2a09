#!/usr/bin/env python3
"""The second program: every rule of the requirements, over plain integers and over a kind of codes.

It is written from the requirements alone, and for words from include/eddybridge32.h and include/eddybridge16.h, and
shares no line with the verified code, nor with the Rust that the code is ported from. Its answers are what both are
held to. Each section below carries their heading; a sentence of theirs stands above the lines that say it.

A refusal is its number. A call that may refuse answers the number first, then what the requirements say it hands
back: the sketch given, or 0. Lent buffers are Python lists and bytearrays, changed in place.

Run as a program, it checks itself against the bench's cases at each width and prints one line; as `second.py desk` it
answers standard input as the desk program must, which is a program of 32-bit codes.
"""
import sys
from dataclasses import dataclass, field
from typing import List, Optional

# ---- The kinds


@dataclass(frozen=True)
class Kind:
    """All that differs between the widths."""
    modulus: int
    code_bytes: int
    greatest: int
    exponent_bits: int
    count_words: int

    def codes(self):
        """How many codes there are. A word holds as many numbers."""
        return 256 ** self.code_bytes


BITS32 = Kind(modulus=4294967291, code_bytes=4, greatest=32, exponent_bits=32, count_words=1)
BITS16 = Kind(modulus=65521, code_bytes=2, greatest=32, exponent_bits=16, count_words=2)

# The count is below this number, and takes as many bytes of a packet, at every width.
COUNTS = 2 ** 32
COUNT_BYTES = 4


# ---- Codes and residues


def residue(kind, code):
    """The code if below p, else the code minus p."""
    return code if code < kind.modulus else code - kind.modulus


def add(kind, a, b):
    """a + b."""
    return (residue(kind, a) + residue(kind, b)) % kind.modulus


def subtract(kind, a, b):
    """a - b."""
    return (residue(kind, a) - residue(kind, b)) % kind.modulus


def negate(kind, a):
    """-a."""
    return -residue(kind, a) % kind.modulus


def multiply(kind, a, b):
    """a times b."""
    return residue(kind, a) * residue(kind, b) % kind.modulus


def power(kind, a, exponent):
    """The power and the number of multiplications made. The exponent is halved until it is 0 or 1; on the way
    back the power is squared, and multiplied once more where the exponent is odd. It is never reduced."""
    if exponent == 0:
        return 1, 0
    if exponent == 1:
        return residue(kind, a), 0
    half, made = power(kind, a, exponent // 2)
    square = half * half % kind.modulus
    if exponent % 2 == 0:
        return square, made + 1
    return square * residue(kind, a) % kind.modulus, made + 2


def power_multiplications(kind, exponent):
    """The number alone, for an exponent of 1 or more: the exponent's bits less 1 less its leading zeros, and its ones
    less 1; and 0 at 0."""
    if exponent == 0:
        return 0
    leading_zeros = kind.exponent_bits - exponent.bit_length()
    ones = bin(exponent).count("1")
    return (kind.exponent_bits - 1 - leading_zeros) + (ones - 1)


def inverse(kind, a):
    """The power p - 2, so the inverse of 0 is 0."""
    return power(kind, a, kind.modulus - 2)[0]


# For each kind as many inverses as the greatest threshold: entry i is the inverse of i + 1.
INVERSES = {kind: [inverse(kind, i + 1) for i in range(kind.greatest)] for kind in (BITS32, BITS16)}


# ---- The sketch


@dataclass(frozen=True)
class Sketch:
    """T, the places of which the first T are the sums, the count, and the last code or None, of a kind."""
    kind: Kind
    threshold: int
    places: tuple
    count: int
    last: Optional[int]

    def sums(self):
        return self.places[:self.threshold]


def filled(kind, sums):
    """The sums with zeros behind them, as many places in all as the greatest threshold."""
    return tuple(sums) + (0,) * (kind.greatest - len(sums))


def no_sketch(kind):
    """What make and read hand back when they refuse."""
    return Sketch(kind, 0, filled(kind, []), 0, None)


def well_formed(s):
    """T in range, the sums and any last code below p, unused places 0."""
    p = s.kind.modulus
    return (1 <= s.threshold <= s.kind.greatest
            and max(s.places[:s.threshold]) < p
            and not any(s.places[s.threshold:])
            and (s.last is None or s.last < p))


def make(kind, threshold):
    """A fresh one has sums 0, count 0, no last code."""
    if not 1 <= threshold <= kind.greatest:
        return 1, no_sketch(kind)
    return 0, Sketch(kind, threshold, filled(kind, [0] * threshold), 0, None)


def powers(kind, x, n):
    """x^1 to x^n modulo p."""
    out, y, p = [], 1, kind.modulus
    for _ in range(n):
        y = y * x % p
        out.append(y)
    return out


def insert(s, code):
    """Sum k grows by x^k modulo p, the count by 1 modulo 2^32, last becomes x."""
    if not well_formed(s):
        return 12, s
    x, p = residue(s.kind, code), s.kind.modulus
    sums = [(a + b) % p for a, b in zip(s.sums(), powers(s.kind, x, s.threshold))]
    return 0, Sketch(s.kind, s.threshold, filled(s.kind, sums), (s.count + 1) % COUNTS, x)


def remove(s, code):
    """Sum k falls by x^k, the count by 1 modulo 2^32, last becomes none if it equals x."""
    if not well_formed(s):
        return 12, s
    x, p = residue(s.kind, code), s.kind.modulus
    sums = [(a - b) % p for a, b in zip(s.sums(), powers(s.kind, x, s.threshold))]
    last = None if s.last == x else s.last
    return 0, Sketch(s.kind, s.threshold, filled(s.kind, sums), (s.count - 1) % COUNTS, last)


def difference(s, rhs):
    """Both subtractions where nothing is refused: the smaller threshold stays, further sums are dropped."""
    threshold = min(s.threshold, rhs.threshold)
    sums = [(a - b) % s.kind.modulus for a, b in zip(s.sums(), rhs.sums())]
    return Sketch(s.kind, threshold, filled(s.kind, sums), (s.count - rhs.count) % COUNTS, None)


def sub_assign(s, rhs):
    """Subtract in place: thresholds must agree."""
    if not (well_formed(s) and well_formed(rhs)):
        return 12, s
    if s.threshold != rhs.threshold:
        return 2, s
    return 0, difference(s, rhs)


def sub(s, rhs):
    """The other form, which keeps the smaller threshold."""
    if not (well_formed(s) and well_formed(rhs)):
        return 12, s
    return 0, difference(s, rhs)


def newton(s):
    """a1 = -s1, and ai = (-(s1 a(i-1) + .. + s(i-1) a1) - si) times the inverse of i, i from 2 to the count."""
    sums, inverses, coefficients = s.sums(), INVERSES[s.kind], []
    for i in range(1, s.count + 1):
        products = sum(a * b for a, b in zip(sums, reversed(coefficients)))
        coefficients.append((-products - sums[i - 1]) * inverses[i - 1] % s.kind.modulus)
    return coefficients


def to_coeffs(s, buffer):
    """n of them go into the first n places of the lent buffer; the answer is n."""
    if not well_formed(s):
        return 12, 0
    if s.count > s.threshold:
        return 4, 0
    if len(buffer) < s.count:
        return 5, 0
    buffer[:s.count] = newton(s)
    return 0, s.count


def value_at(kind, coefficients, x):
    """x^n + a1 x^(n-1) + .. + an at a residue x, each term and each sum of terms reduced."""
    n, p = len(coefficients), kind.modulus
    ladder = [1] + powers(kind, x, n)
    value = ladder[n]
    for i, a in enumerate(coefficients, 1):
        value = (value + a * ladder[n - i] % p) % p
    return value


def evaluate(kind, coefficients, code):
    """The value of the coefficients at a code, of any number of coefficients."""
    if len(coefficients) == 0:
        return 11, 0
    if any(a >= kind.modulus for a in coefficients):
        return 8, 0
    return 0, value_at(kind, coefficients, residue(kind, code))


def eval_precompute(kind, coefficients, code):
    """The same value with all products of a coefficient and a reduced power formed first, and their sum reduced once."""
    n = len(coefficients)
    if n == 0:
        return 11, 0
    if n > kind.greatest:
        return 4, 0
    if any(a >= kind.modulus for a in coefficients):
        return 8, 0
    ladder = [1] + powers(kind, residue(kind, code), n)
    products = [a * b for a, b in zip([1, *coefficients], reversed(ladder))]
    return 0, sum(products) % kind.modulus


def decode(s, log, buffer):
    """Exactly the log entries whose value is 0, as they stand in the log, in its order, repeats kept; with
    count 0 none. They go to the front of the lent buffer, and their number is the answer."""
    if not well_formed(s):
        return 12, 0
    if s.count > s.threshold:
        return 4, 0
    if len(buffer) < len(log):
        return 5, 0
    if s.count == 0:
        return 0, 0
    coefficients = newton(s)
    found = [code for code in log if value_at(s.kind, coefficients, residue(s.kind, code)) == 0]
    buffer[:len(found)] = found
    return 0, len(found)


# ---- Surplus pieces in the bag


def signed(count):
    """The count as a signed 32-bit difference: below 2147483648 it is itself, otherwise the count minus 4294967296."""
    return count if count < 2147483648 else count - 4294967296


def negated(s):
    """Sums modulo the prime, count modulo 2^32, no last code."""
    if not well_formed(s):
        return 12, s
    sums = [-one % s.kind.modulus for one in s.sums()]
    return 0, Sketch(s.kind, s.threshold, filled(s.kind, sums), -s.count % COUNTS, None)


def decode_surplus(s, got, buffer):
    """If the signed count is negative, the negated sketch decodes the log of got codes; a count of 0 or more gives an
    empty list and never 4. The check order is that of decoding."""
    if not well_formed(s):
        return 12, 0
    surplus = max(0, -signed(s.count))
    if surplus > s.threshold:
        return 4, 0
    if len(buffer) < len(got):
        return 5, 0
    return (0, 0) if surplus == 0 else decode(negated(s)[1], got, buffer)


# ---- The packet


def head_bytes(kind):
    """The bytes before the sums: those of the count and of the last code."""
    return COUNT_BYTES + kind.code_bytes


def number_in(data):
    """The number that bytes say, the lowest first."""
    return sum(byte * 256 ** k for k, byte in enumerate(data))


def bytes_of(number, length):
    """A number in as many bytes, the lowest first."""
    return [number // 256 ** k % 256 for k in range(length)]


def packet(kind, count, last, sums):
    """Count, last code, sums, each number lowest byte first."""
    codes = [byte for number in (last, *sums) for byte in bytes_of(number, kind.code_bytes)]
    return bytes(bytes_of(count, COUNT_BYTES) + codes)


def write(s, buffer, hint=None):
    """The packet with min(T, hint) sums. The answer is the number of bytes written; bytes beyond them stay."""
    if not well_formed(s):
        return 12, 0
    if s.last is None:
        return 3, 0
    taken = s.threshold if hint is None else min(s.threshold, hint)
    written = packet(s.kind, s.count, s.last, s.places[:taken])
    if len(buffer) < len(written):
        return 5, 0
    buffer[:len(written)] = written
    return 0, len(written)


def read(kind, data):
    """As many sums as the bytes behind the head hold, rounded down; further bytes are ignored. The last code is
    reduced."""
    head, width = head_bytes(kind), kind.code_bytes
    if len(data) < head:
        return 6, no_sketch(kind)
    threshold = (len(data) - head) // width
    if not 1 <= threshold <= kind.greatest:
        return 7, no_sketch(kind)
    sums = [number_in(data[head + width * k:head + width * (k + 1)]) for k in range(threshold)]
    if any(one >= kind.modulus for one in sums):
        return 8, no_sketch(kind)
    last = residue(kind, number_in(data[COUNT_BYTES:head]))
    return 0, Sketch(kind, threshold, filled(kind, sums), number_in(data[:COUNT_BYTES]), last)


# ---- The words of a sketch


def head_words(kind):
    """The words before the sums: threshold, count, mark, last code."""
    return 3 + kind.count_words


def count_in(kind, words):
    """The count that the words behind the threshold say, its lowest part first."""
    return sum(part * kind.codes() ** k for k, part in enumerate(words[1:1 + kind.count_words]))


def sketch_in(kind, words):
    """The sketch of threshold T that the first words say: the threshold, the count, its lowest part first, 1 and the
    last code or 0 and 0, the T sums. None where they say none, or are fewer than these, or than those before the sums.
    What stands behind them is not read."""
    head = head_words(kind)
    if len(words) < head:
        return None
    threshold, *_, mark, last = words[:head]
    if len(words) < head + threshold:
        return None
    if (mark, last) != (0, 0) and mark != 1:
        return None
    sums = words[head:head + threshold]
    s = Sketch(kind, threshold, filled(kind, sums), count_in(kind, words), last if mark == 1 else None)
    return s if well_formed(s) else None


def signed_count(kind, words):
    """The signed count that words say, of a sketch or not; 0 where they are fewer than those before the sums."""
    return 0 if len(words) < head_words(kind) else signed(count_in(kind, words))


def words_of(s):
    """The words of a sketch, as many as it takes."""
    parts = [s.count // s.kind.codes() ** k % s.kind.codes() for k in range(s.kind.count_words)]
    mark, last = (0, 0) if s.last is None else (1, s.last)
    return [s.threshold, *parts, mark, last, *s.sums()]


def on_words(kind, call, words, *further):
    """A call on the sketch that words say; 12 where they say none."""
    s = sketch_in(kind, words)
    return (12, 0) if s is None else call(s, *further)


def to_words(answer, words):
    """Writes a sketch that a call answers to the first of lent words, and gives the refusal: the call's own, or 5
    where the words are fewer. What stands behind those that are written stays."""
    refusal, s = answer
    if refusal != 0:
        return refusal
    written = words_of(s)
    if len(words) < len(written):
        return 5
    words[:len(written)] = written
    return 0


def both_on_words(kind, call, words, rhs):
    """A subtraction of the sketches that words say: 12 for either."""
    right = sketch_in(kind, rhs)
    return (12, 0) if right is None else on_words(kind, call, words, right)


# ---- The desk program

# The most log lines, and the most got lines.
LINES = 8192
GREATEST_NUMBER = 4294967295


def decimal(digits):
    """The number that the bytes say, or None: digits only, one or more, no leading zero, at most 2^32 - 1."""
    if not digits or not all(0x30 <= d <= 0x39 for d in digits):
        return None
    if len(digits) > 1 and digits[0] == 0x30:
        return None
    number = int(bytes(digits).decode("ascii")) if len(digits) <= 10 else GREATEST_NUMBER + 1
    return number if number <= GREATEST_NUMBER else None


def after_key(line, key):
    """The number of a line `key=number`, or None where the line is another."""
    start = key + b"="
    return decimal(line[len(start):]) if line.startswith(start) else None


def kept(codes, code):
    """Up to 8,192 codes are kept, and the next is refused by 10."""
    if len(codes) == LINES:
        return 10
    codes.append(code)
    return 0


@dataclass
class Desk:
    """What the good lines so far have said."""
    threshold: Optional[int] = None
    log: List[int] = field(default_factory=list)
    got: List[int] = field(default_factory=list)

    def take(self, line):
        """Takes one line without its LF: 0, or the refusal of a bad one. 9 is tested before 1 and 10."""
        if self.threshold is None:
            number = after_key(line, b"threshold")
            if number is None:
                return 9
            self.threshold = number
            return make(BITS32, number)[0]
        number = after_key(line, b"log")
        if number is not None and not self.got:
            return kept(self.log, number)
        number = after_key(line, b"got")
        return 9 if number is None else kept(self.got, number)


def sketch_of(kind, threshold, codes):
    """A fresh sketch with codes inserted."""
    s = make(kind, threshold)[1]
    for code in codes:
        s = insert(s, code)[1]
    return s


def desk_lines(data):
    """The refusal of the first bad line and what was read. Empty input and a last line without LF give 9."""
    desk = Desk()
    *lines, rest = data.split(b"\n")
    for line in lines:
        refusal = desk.take(line)
        if refusal:
            return refusal, desk
    return (9 if rest or not lines else 0), desk


def desk_answer(data):
    """The whole output for the whole input, both as bytes."""
    refusal, desk = desk_lines(data)
    if refusal:
        return b"refusal=%d\n" % refusal
    s = sub_assign(sketch_of(BITS32, desk.threshold, desk.log), sketch_of(BITS32, desk.threshold, desk.got))[1]
    # For a negative count the signed count, the surplus lines and no missing ones.
    count = signed(s.count)
    call, codes, key = (decode, desk.log, b"missing") if count >= 0 else (decode_surplus, desk.got, b"surplus")
    buffer = list(codes)
    refusal, found = call(s, codes, buffer)
    if refusal:
        return b"refusal=%d\n" % refusal
    head = b"refusal=0\nthreshold=%d\ncount=%d\nfound=%d\n" % (desk.threshold, count, found)
    return head + b"".join(b"%s=%d\n" % (key, code) for code in buffer[:found])


# ---- Cases from the bench

# Each case is a name, what this program answers, and what the requirements say.


def listed(s, log, call=decode):
    """What a decoding lists, or its refusal."""
    buffer = [0] * len(log)
    refusal, n = call(s, log, buffer)
    return buffer[:n] if refusal == 0 else refusal


def surplus_in(s, got):
    """What a decoding of the surplus lists, or its refusal."""
    return listed(s, got, decode_surplus)


def into_sevens(call, s, codes, room):
    """What a decoding answers, and a buffer of sevens after it."""
    buffer = [7] * room
    return call(s, codes, buffer), buffer


def coefficients_of(s, room):
    """What a call for coefficients answers, and a buffer of sevens after it."""
    buffer = [7] * room
    return to_coeffs(s, buffer), buffer


def packet_of(s, room):
    """What a writing answers, and the bytes after it."""
    buffer = bytearray(room)
    return write(s, buffer), buffer.hex(" ")


def read_thresholds(kind, lengths):
    """The refusal and the threshold of packets of zeros of some lengths."""
    answers = [read(kind, bytes(length)) for length in lengths]
    return [(refusal, s.threshold) for refusal, s in answers]


def field_cases_32():
    """P1 to P4."""
    yield "P1", [residue(BITS32, c) for c in (4294967290, 4294967291, 4294967295)], [4294967290, 0, 4]
    yield "P2", [add(BITS32, 4294967290, 1), subtract(BITS32, 0, 1)], [0, 4294967290]
    yield "P2", multiply(BITS32, 4294967290, 4294967290), 1
    yield "P3", [inverse(BITS32, i) for i in (2, 3, 4)], [2147483646, 1431655764, 1073741823]
    yield "P4", power(BITS32, 2, 10), (1024, 4)
    for exponent, made in ((4294967289, 60), (4294967295, 62)):
        yield "P4", (power(BITS32, 2, exponent)[1], power_multiplications(BITS32, exponent)), (made, made)


def sketch_cases_32():
    """P5 to P12, the case without a number, and the desk's example."""
    p5 = sketch_of(BITS32, 3, [10, 12])
    yield "P5", p5.sums(), (22, 244, 2728)
    yield "P5", coefficients_of(p5, 3), ((0, 2), [4294967269, 120, 7])
    yield "P6", listed(p5, [1, 2, 10, 12, 10]), [10, 12, 10]
    yield "P7", listed(sketch_of(BITS32, 3, [10, 10]), [1, 10, 10, 10]), [10, 10, 10]
    said = "02 00 00 00 0a 00 00 00 0b 00 00 00 65 00 00 00"
    yield "P8", packet_of(sketch_of(BITS32, 2, [1, 10]), 16), ((0, 16), said)
    p9 = remove(make(BITS32, 1)[1], 1)[1]
    yield "P9", (p9.count, p9.sums()), (4294967295, (4294967290,))
    yield "P9", (write(p9, bytearray(12))[0], listed(p9, [1])), (3, 4)
    p10 = remove(sketch_of(BITS32, 2, [1]), 2)[1]
    yield "P10", (p10.sums(), p10.count, p10.last), ((4294967290, 4294967288), 0, 1)
    yield "P10", listed(p10, [1, 2]), []
    p11 = sketch_of(BITS32, 2, [4294967295])
    for code in (4294967295, 4):
        gone = remove(p11, code)[1]
        yield "P11", (gone.sums(), gone.count, gone.last), ((0, 0), 0, None)
    yield "P12", [read(BITS32, bytes(n))[0] for n in (7, 8, 11, 140)], [6, 7, 7, 7]
    yield "P12", read_thresholds(BITS32, (12, 139)), [(0, 1), (0, 32)]
    yield "limit", [read(BITS32, packet(BITS32, 1, 1, [n]))[0] for n in (4294967290, 4294967291)], [0, 8]
    yield "desk", desk_answer(b"threshold=3\nlog=1\nlog=2\nlog=10\ngot=1\ngot=10\n"), \
        b"refusal=0\nthreshold=3\ncount=1\nfound=1\nmissing=2\n"


def field_cases_16():
    """What P1 to P4 are at 16 bits."""
    yield "1/12 residues", [residue(BITS16, c) for c in (65520, 65521, 65535)], [65520, 0, 14]
    yield "1/12 field", [add(BITS16, 65520, 1), subtract(BITS16, 0, 1), multiply(BITS16, 65520, 65520)], [0, 65520, 1]
    yield "1/12 inverses", [inverse(BITS16, i) for i in (0, 2, 3, 4)], [0, 32761, 43681, 49141]
    yield "1/12 power", [power(BITS16, 2, 10), power(BITS16, 2, 16), power(BITS16, 0, 0)], [(1024, 4), (15, 4), (1, 0)]
    for exponent, made in ((0, 0), (1, 0), (2, 1), (32768, 15), (65519, 29), (65535, 30)):
        yield "1/12 count", (power(BITS16, 2, exponent)[1], power_multiplications(BITS16, exponent)), (made, made)


def sketch_cases_16():
    """What P5 to P12 are at 16 bits."""
    pair = sketch_of(BITS16, 3, [10, 12])
    yield "1/12 sums", (pair.sums(), coefficients_of(pair, 3)), ((22, 244, 2728), ((0, 2), [65499, 120, 7]))
    yield "1/12 decode", listed(pair, [1, 2, 10, 12, 10]), [10, 12, 10]
    yield "1/12 decode", listed(sketch_of(BITS16, 1, [14]), [14, 65535, 15]), [14, 65535]
    written = packet_of(sketch_of(BITS16, 2, [1, 10]), 10)
    yield "1/12 packet", written, ((0, 10), "02 00 00 00 0a 00 0b 00 65 00")
    below = remove(make(BITS16, 1)[1], 1)[1]
    yield "1/12 count", (below.count, below.sums(), words_of(below)), (4294967295, (65520,), [1, 65535, 65535, 0, 0, 65520])
    yield "1/12 count", (write(below, bytearray(8))[0], listed(below, [1])), (3, 4)
    above = sketch_of(BITS16, 2, [65535])
    for code in (65535, 14):
        gone = remove(above, code)[1]
        yield "1/12 last code", (gone.sums(), gone.count, gone.last), ((0, 0), 0, None)
    yield "1/12 lengths", [read(BITS16, bytes(n))[0] for n in (0, 5, 6, 7, 72, 73)], [6, 6, 7, 7, 7, 7]
    yield "1/12 lengths", read_thresholds(BITS16, (8, 9, 10, 70, 71)), [(0, 1), (0, 1), (0, 2), (0, 32), (0, 32)]
    yield "1/12 sums read", [read(BITS16, packet(BITS16, 1, 1, [n]))[0] for n in (65520, 65521, 65535)], [0, 8, 8]
    yield "1/12 last read", read(BITS16, packet(BITS16, 65536, 65535, [0]))[1].last, 14


def single_reduction_cases():
    """The value with one reduction: its refusals in their order, and that it is the plain one for 1 to 32 coefficients."""
    calls = ([], [65521], [0] * 33, [65521] * 33, [65535] + [0] * 31, [0] * 31 + [65521])
    yield "1/12 single", [eval_precompute(BITS16, one, 0)[0] for one in calls], [11, 8, 4, 4, 8, 8]
    yield "1/12 single", eval_precompute(BITS16, [65499, 120], 65535), (0, 14 * 14 - 22 * 14 + 120)
    yield "1/12 single", eval_precompute(BITS16, [65520] * 32, 1), (0, 65490)
    for n in range(1, 33):
        highest, mixed = [65520] * n, [(7919 * k + n) % 65521 for k in range(n)]
        for x in (0, 1, 2, 14, 32768, 65520, 65521, 65535):
            for one in (highest, mixed):
                yield "1/12 single", eval_precompute(BITS16, one, x), evaluate(BITS16, one, x)


def word_cases(kind, start, grown):
    """The sketch of 10 and 12 in words: exactly as many, with others behind them, and too few; what is no sketch."""
    head, p = head_words(kind), kind.modulus
    yield "words", words_of(sketch_of(kind, 3, [10, 12])), start
    for behind in ([], [0], [p, 7]):
        words = start + behind
        refusal = to_words(on_words(kind, insert, words, 1), words)
        yield "words", (refusal, words), (0, grown + behind)
    for length in range(len(start)):
        words = start[:length]
        refusals = on_words(kind, insert, words, 1)[0], to_words(make(kind, 3), words)
        yield "words", (*refusals, words), (12, 5, start[:length])
    faults = [(head - 2, 2), (head - 2, 0), (head - 1, p), (0, 0), (0, 33), (0, kind.codes() // 2), (head, p), (head + 2, p)]
    for at, number in faults:
        words = start + [0] * kind.greatest
        words[at] = number
        yield "words", sketch_in(kind, words), None
    yield "words", sketch_in(kind, start + [p]).sums(), (22, 244, 2728)
    yield "words", both_on_words(kind, sub, start, start[:-1])[0], 12


def signed_count_cases(kind):
    """Counts at the edges as signed ones, with their surplus lists; and the signed counts of words, a sketch or not."""
    p, head = kind.modulus, head_words(kind)
    # Counts, what each is as a signed one, and what a sketch of it whose first sum is 1 lists, or the refusal.
    edges = [(0, 0, []), (33, 33, []), (2147483647, 2147483647, []), (2147483648, -2147483648, 4),
             (2147483649, -2147483647, 4), (4294967263, -33, 4), (4294967295, -1, [p - 1])]
    for count, said, found in edges:
        for threshold in (1, 2, 31, 32):
            s = Sketch(kind, threshold, filled(kind, [1] * threshold), count, None)
            answers = signed(count), signed_count(kind, words_of(s)), surplus_in(s, [1, p - 1])
            yield "4/12 count", answers, (said, said, found)
    words = words_of(Sketch(kind, 1, filled(kind, [0]), 4294967295, None))
    counts = [signed_count(kind, words[:length]) for length in range(head + 2)]
    yield "4/12 words", counts, [0] * head + [-1, -1]
    spoilt = [kind.codes() - 1, *words[1:1 + kind.count_words], 5, p, p]
    yield "4/12 words", (sketch_in(kind, spoilt), signed_count(kind, spoilt)), (None, -1)


def surplus_cases(kind):
    """P9 and P10 negated and decoded, an exact surplus list at the threshold, and one above it."""
    p, greatest = kind.modulus, kind.codes() - 1
    p9 = remove(make(kind, 1)[1], 1)[1]
    yield "4/12 P9", (signed(p9.count), surplus_in(p9, [1, 2]), listed(p9, [1, 2])), (-1, [1], 4)
    yield "4/12 P9", negated(p9)[1], Sketch(kind, 1, filled(kind, [1]), 1, None)
    p10 = remove(sketch_of(kind, 2, [1]), 2)[1]
    yield "4/12 P10", (signed(p10.count), surplus_in(p10, [1, 2])), (0, [])
    yield "4/12 P10", negated(p10)[1], Sketch(kind, 2, filled(kind, [1, 3]), 0, None)
    for s in (p9, p10):
        yield "4/12 room", into_sevens(decode_surplus, s, [2, 1], 1), ((5, 0), [7])
    yield "4/12 room", into_sevens(decode_surplus, p9, [2, 1], 3), ((0, 1), [1, 7, 7])
    spoilt = Sketch(kind, 1, filled(kind, [p]), 4294967294, None)
    orders = [into_sevens(decode_surplus, s, [2, 1], 1) for s in (remove(p9, 5)[1], spoilt)]
    yield "4/12 order", orders, [((4, 0), [7]), ((12, 0), [7])]

    kit, bag = sketch_of(kind, 3, [10]), sketch_of(kind, 3, [12, 10, 10, greatest])
    s = sub_assign(kit, bag)[1]
    got = [10, 12, greatest, 10, 12, greatest - p, 9]
    yield "4/12 exact", (signed(s.count), surplus_in(s, got)), (-3, got[:-1])
    yield "4/12 above", (surplus_in(remove(s, 5)[1], got), surplus_in(bag, got), listed(bag, got)), (4, [], 4)
    yield "4/12 twice", negated(negated(bag)[1])[1], Sketch(kind, 3, bag.places, 4, None)


def negated_word_cases(kind, start, said):
    """The sketch of 10 and 12 negated into words: exactly as many, with others behind them, and too few."""
    for behind in ([], [9, kind.modulus]):
        out = [7] * len(said) + behind
        yield "4/12 words", (to_words(on_words(kind, negated, start), out), out), (0, said + behind)
    for length in range(len(said)):
        out = [7] * length
        refusals = [to_words(on_words(kind, negated, words), out) for words in (start, start[:length])]
        yield "4/12 words", (refusals, out), ([5, 12], [7] * length)


def desk_cases():
    """The desk program's surplus lines, and the most got lines."""
    def said(*lines):
        return "".join(line + "\n" for line in lines).encode()

    def answered(threshold, log, got):
        lines = [f"threshold={threshold}", *(f"log={code}" for code in log), *(f"got={code}" for code in got)]
        return desk_answer(said(*lines))

    yield "4/12 desk", answered(2, [1, 2, 3, 4], [4, 9, 1, 2, 3, 7]), \
        said("refusal=0", "threshold=2", "count=-2", "found=2", "surplus=9", "surplus=7")
    yield "4/12 desk", answered(2, [1, 2, 3, 4], [1, 2, 3, 4, 4]), \
        said("refusal=0", "threshold=2", "count=-1", "found=2", "surplus=4", "surplus=4")
    yield "4/12 desk", answered(1, [], [4294967291]), \
        said("refusal=0", "threshold=1", "count=-1", "found=1", "surplus=4294967291")
    yield "4/12 desk", answered(2, [], [1, 2, 3]), said("refusal=4")
    yield "4/12 desk", answered(2, [1, 2, 3], []), said("refusal=4")
    yield "4/12 desk", answered(2, [1, 2], [2, 1]), said("refusal=0", "threshold=2", "count=0", "found=0")
    most = said("threshold=1", *["got=5"] * 8192)
    endings = [b"", b"got=5\n", b"got=05\n", b"log=5\n", b"got=5\nbad\n", b"bad\ngot=5\n", b"got=5"]
    yield "4/12 desk", [desk_answer(most + ending) for ending in endings], \
        [b"refusal=%d\n" % number for number in (4, 10, 9, 9, 10, 9, 9)]


def cases_of(kind):
    """What the requirements say of every width alike."""
    full = sketch_of(kind, 32, range(1, 33))
    yield "limit", listed(full, list(range(1, 40))), list(range(1, 33))
    yield "limit", listed(insert(full, 33)[1], [1]), 4
    yield "make", [make(kind, threshold)[0] for threshold in (0, 1, 32, 33)], [1, 0, 0, 1]
    for count in (0, 32, 33, 65535, 65536, 2 ** 31, 2 ** 32 - 1):
        s = Sketch(kind, 1, filled(kind, [1]), count, None)
        around = insert(s, 0)[1].count, remove(s, 0)[1].count
        yield "count", (sketch_in(kind, words_of(s)), around), (s, ((count + 1) % 2 ** 32, (count - 1) % 2 ** 32))
    table = INVERSES[kind]
    yield "table", [multiply(kind, table[i], i + 1) for i in range(kind.greatest)], [1] * kind.greatest
    made = [power(kind, 3, exponent)[1] for exponent in range(2000)]
    yield "count", made, [power_multiplications(kind, exponent) for exponent in range(2000)]


def bench_cases():
    """All cases, of both widths."""
    yield from field_cases_32()
    yield from sketch_cases_32()
    yield from cases_of(BITS32)
    yield from word_cases(BITS32, [3, 2, 1, 12, 22, 244, 2728], [3, 3, 1, 1, 23, 245, 2729])
    yield from signed_count_cases(BITS32)
    yield from surplus_cases(BITS32)
    yield from negated_word_cases(BITS32, [3, 2, 1, 12, 22, 244, 2728],
                                  [3, 4294967294, 0, 0, 4294967269, 4294967047, 4294964563])
    yield from desk_cases()
    yield from field_cases_16()
    yield from sketch_cases_16()
    yield from single_reduction_cases()
    yield from cases_of(BITS16)
    yield from word_cases(BITS16, [3, 2, 0, 1, 12, 22, 244, 2728], [3, 3, 0, 1, 1, 23, 245, 2729])
    yield from signed_count_cases(BITS16)
    yield from surplus_cases(BITS16)
    yield from negated_word_cases(BITS16, [3, 2, 0, 1, 12, 22, 244, 2728],
                                  [3, 65534, 65535, 0, 0, 65499, 65277, 62793])


def main():
    if sys.argv[1:] == ["desk"]:
        sys.stdout.buffer.write(desk_answer(sys.stdin.buffer.read()))
        return 0
    wrong = 0
    tried = 0
    for name, ours, said in bench_cases():
        tried += 1
        if ours != said:
            wrong += 1
            print(f"difference: {name}: {ours} and not {said}")
    print(f"compared {tried} statements of the bench cases with the second program: {wrong} differences")
    return 1 if wrong else 0


if __name__ == "__main__":
    raise SystemExit(main())
