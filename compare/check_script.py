#!/usr/bin/env python3
"""check_script.py [FILE]: replays a script of operations by the second program and compares every answer.

A script is text, one line an operation: its kind, the number of its arguments, the arguments, the number of its
answers, the answers; decimal numbers parted by one space. Operations work on numbered slots. A slot is a slice of
words, none at the start, and a sketch is the first of them. A call that is refused leaves its slot, or the buffer that
it was lent, as it was. An operation at 16 bits has the number of the one at 32 bits and 100 more, and slots of its own.

Prints the operations of each kind and the differences, and ends with a line that says both numbers.
"""
import sys
from collections import Counter, defaultdict

import second


class Player:
    """The slots of a width, and a method for each operation, which takes the arguments and gives the answers."""

    def __init__(self, kind):
        self.kind = kind
        self.slots = defaultdict(list)

    def on(self, call, slot, *further):
        """A call on the sketch of a slot."""
        return second.on_words(self.kind, call, self.slots[slot], *further)

    def on_both(self, call, slot, rhs):
        """A subtraction of the sketch of a slot from that of another."""
        return second.both_on_words(self.kind, call, self.slots[slot], self.slots[rhs])

    def store(self, slot, answer):
        """Writes a sketch that was answered to the slot's words, unless the call refused."""
        refusal = second.to_words(answer, self.slots[slot])
        return [refusal, *self.slots[slot]]

    def new(self, slot, threshold):
        return self.store(slot, second.make(self.kind, threshold))

    def put(self, slot, *words):
        self.slots[slot] = list(words)
        return []

    def well_formed(self, slot):
        return [int(second.sketch_in(self.kind, self.slots[slot]) is not None)]

    def insert(self, slot, code):
        return self.store(slot, self.on(second.insert, slot, code))

    def remove(self, slot, code):
        return self.store(slot, self.on(second.remove, slot, code))

    def sub_assign(self, slot, rhs):
        return self.store(slot, self.on_both(second.sub_assign, slot, rhs))

    def sub(self, slot, rhs, to):
        return self.store(to, self.on_both(second.sub, slot, rhs))

    def to_coeffs(self, slot, room, fill):
        buffer = [fill] * room
        return [*self.on(second.to_coeffs, slot, buffer), *buffer]

    def eval(self, x, *coefficients):
        return [*second.evaluate(self.kind, coefficients, x)]

    def decode_with_log(self, slot, room, fill, *log):
        buffer = [fill] * room
        return [*self.on(second.decode, slot, log, buffer), *buffer]

    def serialize(self, slot, room, fill):
        buffer = bytearray([fill] * room)
        return [*self.on(second.write, slot, buffer), *buffer]

    def serialize_with_hint(self, slot, hint, room, fill):
        buffer = bytearray([fill] * room)
        return [*self.on(second.write, slot, buffer, hint), *buffer]

    def deserialize(self, slot, *data):
        return self.store(slot, second.read(self.kind, data))

    def field_reduce(self, a):
        return [second.residue(self.kind, a)]

    def field_add(self, a, b):
        return [second.add(self.kind, a, b)]

    def field_sub(self, a, b):
        return [second.subtract(self.kind, a, b)]

    def field_mul(self, a, b):
        return [second.multiply(self.kind, a, b)]

    def field_neg(self, a):
        return [second.negate(self.kind, a)]

    def field_inv(self, a):
        return [second.inverse(self.kind, a)]

    def field_pow(self, a, exponent):
        return [*second.power(self.kind, a, exponent)]

    def field_pow_multiplications(self, exponent):
        return [second.power_multiplications(self.kind, exponent)]

    def eval_precompute(self, x, *coefficients):
        return [*second.eval_precompute(self.kind, coefficients, x)]

    def signed_count(self, slot):
        count = second.signed_count(self.kind, self.slots[slot])
        return [int(count < 0), abs(count)]

    def negate(self, slot, to):
        return self.store(to, self.on(second.negated, slot))

    def decode_surplus_with_log(self, slot, room, fill, *got):
        buffer = [fill] * room
        return [*self.on(second.decode_surplus, slot, got, buffer), *buffer]


# The operations. An operation's number is its place here, from 1, and what its width adds.
OPERATIONS = ["new", "put", "well_formed", "insert", "remove", "sub_assign", "sub", "to_coeffs", "eval",
              "decode_with_log", "serialize", "serialize_with_hint", "deserialize", "field_reduce", "field_add",
              "field_sub", "field_mul", "field_neg", "field_inv", "field_pow", "field_pow_multiplications",
              "eval_precompute", "signed_count", "negate", "decode_surplus_with_log"]

# For each width its name, what it adds to numbers, its kind and the operations that it lacks.
WIDTHS = [("32 bits", 0, second.BITS32, {"eval_precompute"}),
          ("16 bits", 100, second.BITS16, set())]

# The operations whose first answer is a refusal.
REFUSING = {"new", *OPERATIONS[3:13], "eval_precompute", "negate", "decode_surplus_with_log"}


class Replay:
    """A player for each width, and what was counted: operations by number, refusals, differences."""

    def __init__(self):
        self.methods, self.names = {}, {}
        self.made, self.refusals, self.differences = Counter(), Counter(), 0
        for width, added, kind, lacking in WIDTHS:
            player = Player(kind)
            for number, operation in enumerate(OPERATIONS, added + 1):
                if operation not in lacking:
                    self.methods[number] = getattr(player, operation)
                    self.names[number] = f"{operation}, {width}"

    def run(self, line):
        """Replays one line."""
        number, taken, *rest = map(int, line.split())
        arguments, answers = rest[:taken], rest[taken + 1:]
        assert rest[taken] == len(answers), "the line's numbers do not fit its counts"
        self.made[number] += 1
        method = self.methods[number]
        due = method(*arguments)
        if method.__name__ in REFUSING:
            self.refusals[due[0]] += 1
        if due != answers:
            self.differences += 1
            if self.differences <= 10:
                print(f"difference: {self.names[number]} {arguments}: {answers} and not {due}")

    def extent(self):
        """How many operations there were at each width that occurs."""
        counted = [(sum(self.made[added + k] for k in range(100)), width) for width, added, _, _ in WIDTHS]
        return " and ".join(f"{operations} operations at {width}" for operations, width in counted if operations)

    def due(self):
        """The operations, by number, of each width that occurs: a script has each of them."""
        widths = {number // 100 for number in self.made}
        return [number for number in sorted(self.names) if number // 100 in widths]


def main():
    replay = Replay()
    with open(sys.argv[1], encoding="ascii") if len(sys.argv) > 1 else sys.stdin as source:
        for line in source:
            replay.run(line)
    for number in replay.due():
        print(f"  {replay.names[number]:36}{replay.made[number]:>10}")
        if replay.made[number] == 0:
            replay.differences += 1
            print(f"difference: no operation {replay.names[number]}")
    print("  refused by " + ", ".join(f"{n}: {replay.refusals[n]}" for n in sorted(replay.refusals) if n))
    print(f"compared {replay.extent()} with the second program: {replay.differences} differences")
    return 1 if replay.differences or not replay.made else 0


if __name__ == "__main__":
    raise SystemExit(main())
