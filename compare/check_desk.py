#!/usr/bin/env python3
"""check_desk.py INPUTS SEED PROGRAM [WORDS..]: runs the desk program on many inputs and compares each whole output
with the second program's.

The inputs are good ones, of bags that hold less than the kit, more, and both at once, about as many as the threshold;
good ones with one fault; faults that stand against each other (the first bad line decides, and on one line 9 comes
before 1 and 10); and a few as long as the program takes. Ends with a line that says how many inputs were compared, how
many of them have more got lines than log lines, so that the count is negative, and how many differ. It is a difference
if none with a negative count lists something, or none is refused.
"""
import os
import random
import subprocess
import sys
from collections import Counter
from concurrent.futures import ThreadPoolExecutor

from second import BITS32, LINES, desk_answer, desk_lines

CODES, P = BITS32.codes(), BITS32.modulus

# What is added to the name of an answer where the count is negative.
NEGATIVE = ", a negative count"

EDGES = [0, 1, 2, 4, P - 1, P, P + 1, P + 4, CODES - 1]
BAD_NUMBERS = [b"", b"00", b"01", b"0000000001", b"4294967296", b"4294967300", b"9999999999", b"10000000000",
               b"42949672950", b"18446744073709551617", b"1" * 400, b"-1", b"+1", b" 1", b"1 ", b"1.0", b"0x1",
               b"1e1", b"1\r", b"\t1", b"1_0", b"a", b"\x00", b"1\x00", b"\xff", b"\xd9\xa1", b"=1", b"1=1"]
BAD_LINES = [b"", b"log", b"log1", b"=1", b"Log=1", b"LOG=1", b"log =1", b" log=1", b"lo=1", b"logs=1", b"log:1",
             b"gotten=1", b"go=1", b"got", b"got==1", b"threshold=3", b"threshold=33", b"count=1", b"refusal=0",
             b"missing=1", b"surplus=1", b"\x00", b"\xff\xfe", b"log=1\rlog=2", b"# log=1"]


def number(dice):
    return dice.choice(EDGES) if dice.random() < 0.3 else dice.randrange(dice.choice([4, 100, CODES]))


def line(key, value):
    return key + b"=%d" % value


def codes(dice, most):
    """Codes with repeats among them."""
    pool = [number(dice) for _ in range(dice.randint(1, most))]
    return [dice.choice(pool) for _ in range(dice.randint(0, most))]


def kit(dice):
    """A log."""
    return codes(dice, dice.choice([3, 8, 30, 60]))


def about(dice, threshold):
    """A number of pieces: none, one, T, one more or fewer, or any up to T."""
    return dice.choice([0, 1, threshold - 1, threshold, threshold + 1, dice.randint(0, threshold)])


def short_bag(dice, threshold):
    """A kit of which about T pieces did not arrive."""
    log = kit(dice)
    return log, log[min(len(log), about(dice, threshold)):]


def surplus_bag(dice, threshold):
    """A kit that arrived whole, and about T pieces more, of the kit or not, with repeats among them."""
    log = kit(dice)
    pool = log + [number(dice) for _ in range(dice.randint(1, threshold))]
    return log, log + [dice.choice(pool) for _ in range(max(1, about(dice, threshold)))]


def mixed_bag(dice, threshold):
    """A kit of which some did not arrive, and others too many, mostly more than did not; half the time of few and small
    codes, some of which are then listed though the list means nothing."""
    few = dice.random() < 0.5
    log, got = short_bag(dice, threshold)
    log, got = ([code % 8 for code in log], [code % 8 for code in got]) if few else (log, got)
    others = len(log) - len(got) + about(dice, threshold) if dice.random() < 0.7 else dice.randint(1, 5)
    return log, got + [dice.randrange(8) if few else number(dice) for _ in range(others)]


def good_lines(dice):
    """A kit and a bag, in which the pieces lie in any order."""
    threshold = dice.choice([1, 2, 3, 20, 31, 32, dice.randint(1, 32)])
    log, got = dice.choices([short_bag, surplus_bag, mixed_bag], [4, 4, 2])[0](dice, threshold)
    dice.shuffle(got)
    return [line(b"threshold", threshold)] + [line(b"log", c) for c in log] + [line(b"got", c) for c in got]


def joined(lines):
    return b"".join(one + b"\n" for one in lines)


def bad_number(dice, lines):
    at = dice.randrange(len(lines))
    key = lines[at].split(b"=")[0]
    lines[at] = key + b"=" + dice.choice(BAD_NUMBERS)
    return joined(lines)


def bad_line(dice, lines):
    lines.insert(dice.randint(0, len(lines)), dice.choice(BAD_LINES))
    return joined(lines)


def bad_threshold(dice, lines):
    lines[0] = line(b"threshold", dice.choice([0, 33, 34, 256, CODES - 1]))
    if dice.random() < 0.5:
        lines.insert(dice.randint(1, len(lines)), dice.choice(BAD_LINES))
    return joined(lines) if dice.random() < 0.7 else joined(lines[:1])[:-1]


def turned(dice, lines):
    """Lines in another order: a threshold that is not first, a log line after a got line."""
    a, b = dice.randrange(len(lines)), dice.randrange(len(lines))
    lines[a], lines[b] = lines[b], lines[a]
    return joined(lines)


def damaged(dice, lines):
    """A byte changed, dropped or put in, or the end cut off."""
    data = bytearray(joined(lines))
    at = dice.randrange(len(data))
    kind = dice.randrange(4)
    if kind == 0:
        data[at] = dice.choice([10, 13, 32, 48, 57, 61, dice.randrange(256)])
    elif kind == 1:
        del data[at]
    elif kind == 2:
        data.insert(at, dice.choice([10, 13, 32, 48, 61, dice.randrange(256)]))
    else:
        del data[at:]
    return bytes(data)


def other_ends(dice, lines):
    """No LF at the end, or one too many, or CR LF."""
    data = joined(lines)
    return dice.choice([data[:-1], data + b"\n", data.replace(b"\n", b"\r\n"), b"\n" + data])


def some_input(dice):
    lines = good_lines(dice)
    if dice.random() < 0.6:
        return joined(lines)
    return dice.choice([bad_number, bad_line, bad_threshold, turned, damaged, other_ends])(dice, lines)


def long_inputs(dice):
    """The log's greatest length and one more, and what may stand in its way."""
    log = [line(b"log", number(dice)) for _ in range(LINES)]
    got = [b"got" + one[3:] for one in log]
    head = [b"threshold=32"]
    more = [b"log=5"]
    yield joined(head + log + got[20:])
    yield joined(head + log + got[33:])
    yield joined(head + log)
    yield joined(head + log + got)
    yield joined(head + log + more)
    yield joined(head + log + more)[:-1]
    yield joined(head + log + [b"log=05"])
    yield joined(head + log + more + [b"bad"])
    yield joined(head + [b"bad"] + log + more)
    yield joined(head + log + got[:1] + more)
    yield joined([b"threshold=0"] + log + more)


def long_bags(dice):
    """The bag's greatest length, one less and one more, with a kit of about as many pieces, and what may stand in its
    way; and a bag of 32 codes 256 times each, of which the kit lacks one of each, so that every piece is listed."""
    got = [line(b"got", number(dice)) for _ in range(LINES)]
    log = [b"log" + one[3:] for one in got]
    head = [b"threshold=32"]
    more = [b"got=5"]
    for kit_lines in (log, log[1:], log[31:], log[32:], log[33:], []):
        yield joined(head + kit_lines + got[:-1])
        yield joined(head + kit_lines + got)
        yield joined(head + kit_lines + got + more)
    for ending in (more + more, more + [b"bad"], [b"bad"] + more, [b"got=05"], [b"got=4294967296"], [b"log=5"], [b""]):
        yield joined(head + log[32:] + got + ending)
    yield joined(head + log[32:] + got)[:-1]
    yield joined(head + log[32:] + got + more)[:-1]
    yield joined(head + [b"bad"] + got + more)
    yield joined([b"threshold=33"] + got + more)
    yield joined(head + log + [b"log=5"] + got + more)
    yield joined(head + log[:5] + [b"got=7"] * (2 * LINES))
    pieces = [CODES - 1 - 97654321 * k for k in range(32)] * (LINES // 32)
    yield joined(head + [line(b"log", code) for code in pieces[32:]] + [line(b"got", code) for code in pieces])


def counts_around(threshold):
    """A bag for each signed count around minus the threshold and around 0 and the threshold, each piece but once."""
    for count in (-threshold - 1, -threshold, 1 - threshold, -1, 0, 1, threshold - 1, threshold, threshold + 1):
        log = [line(b"log", 100 + k) for k in range(max(0, count) + 3)]
        got = [line(b"got", 100 + k) for k in range(max(0, -count) + 3)]
        yield joined([line(b"threshold", threshold)] + log + got)


def fixed_inputs():
    yield b""
    yield b"\n"
    yield b"threshold=3"
    yield b"threshold=3\n"
    yield b"threshold=3\nlog=1\nlog=2\nlog=10\ngot=1\ngot=10\n"
    yield b"threshold=3\nlog=10\nlog=12\nlog=10\n"
    yield b"threshold=1\nlog=0\nlog=4294967291\ngot=0\n"
    yield b"threshold=1\ngot=1\n"
    yield b"threshold=1\ngot=1\ngot=2\n"
    yield b"threshold=2\nlog=0\ngot=4294967291\ngot=5\ngot=0\n"
    yield b"threshold=2\nlog=1\nlog=2\nlog=3\ngot=1\ngot=2\ngot=8\ngot=9\n"
    yield b"threshold=33\nbad\n"
    yield b"threshold=0"
    yield b"threshold=2\nlog=1\ngot=2\n"
    for threshold in range(1, 33):
        yield from counts_around(threshold)


def inputs(count, seed):
    dice = random.Random(seed)
    yield from fixed_inputs()
    yield from long_inputs(dice)
    yield from long_bags(dice)
    for _ in range(count):
        yield some_input(dice)


def answer_in(data, due):
    """What an input comes to: the first line of its answer, and whether the count is negative."""
    refusal, desk = desk_lines(data)
    first = due.split(b"\n")[0].decode()
    return first + NEGATIVE if refusal == 0 and len(desk.got) > len(desk.log) else first


def main():
    count, seed, program = int(sys.argv[1]), int(sys.argv[2]), sys.argv[3:]

    def outcome(data):
        ran = subprocess.run(program, input=data, stdout=subprocess.PIPE, check=False)
        due = desk_answer(data)
        return data, due, ran.stdout if ran.returncode == 0 else b"exit status %d" % ran.returncode

    answers, surplus, differences = Counter(), 0, 0
    with ThreadPoolExecutor(os.cpu_count()) as workers:
        for data, due, wrote in workers.map(outcome, inputs(count, seed)):
            answers[answer_in(data, due)] += 1
            surplus += b"\nsurplus=" in due
            if wrote != due:
                differences += 1
                if differences <= 10:
                    print(f"difference: on {data[:300]!r} the program writes {wrote[:200]!r} and not {due[:200]!r}")
    print(f"desk inputs by answer, seed {seed}:")
    for first, made in sorted(answers.items(), key=lambda item: int(item[0].split("=")[1].split(",")[0])):
        print(f"  {first:32}{made:>10}")
    print(f"  {'with surplus lines':32}{surplus:>10}")
    if surplus == 0 or answers["refusal=4" + NEGATIVE] == 0:
        differences += 1
        print("difference: of a negative count some input is to list something, and some is to be refused")
    negative = sum(made for first, made in answers.items() if first.endswith(NEGATIVE))
    print(f"compared {sum(answers.values())} desk inputs, {negative} of them with a negative count, "
          f"with the second program: {differences} differences")
    return 1 if differences else 0


if __name__ == "__main__":
    raise SystemExit(main())
