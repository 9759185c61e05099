"""Writes pairs of a dividend and a divisor, or tests what was made of them.

    pairs.py write SEED COUNT > PAIRS
    pairs.py test PAIRS < ANSWERS

Quotient and remainder are Python's of the magnitudes, with the signs that ECMA-262 gives them, through ToInt32. The
instructions are counted along the routine's branches: up to five tests of how many bits the quotient may have, then a
round for each of 1, 4, 8, 12, 16 or 32 bits.
"""
import random
import sys

LOW, HIGH = -(2**31), 2**31 - 1
EDGES = [0, 1, -1, 2, -2, 3, -3, 7, -7, 10, -13, 255, 256, -256, 65535, 65536, -65536, 2**30, -(2**30), HIGH, HIGH - 1, LOW, LOW + 1]


def expected(dividend, divisor):
    if divisor == 0:
        return 0, 0
    quotient, remainder = divmod(abs(dividend), abs(divisor))
    if (dividend < 0) != (divisor < 0):
        quotient = -quotient
    if quotient == 2**31:
        quotient = LOW
    return quotient, -remainder if dividend < 0 else remainder


def instructions(dividend, divisor):
    if divisor == 0:
        return 4
    rest, divisor_up = abs(dividend), abs(divisor)
    quotient = rest // divisor_up
    count = 2
    count += 5 if dividend < 0 else 3
    count += 4 if divisor < 0 else 2
    count += 3
    for bits in (1, 4, 8, 12, 16):
        count += 3
        if rest >> bits < divisor_up:
            break
    else:
        bits = 32
        count += 2
    count += sum(6 if quotient >> place & 1 else 4 for place in range(1, bits))
    count += 4 if quotient & 1 else 3
    count += 4 if dividend < 0 else 3
    count += 6 if (dividend < 0) != (divisor < 0) else 5
    return count


def number(chosen):
    """A number whose magnitude has any length with the same chance, or one at an edge."""
    kind = chosen.random()
    if kind < 0.1:
        return chosen.choice(EDGES)
    size = chosen.randint(0, 31)
    return max(LOW, min(HIGH, chosen.choice([1, -1]) * chosen.getrandbits(size + 1)))


def write(seed, count):
    chosen = random.Random(seed)
    for _ in range(count):
        print(number(chosen), number(chosen))


def test(path):
    wrong = most = 0
    rows = 0
    with open(path, encoding="ascii") as pairs:
        for pair, answer in zip(pairs, sys.stdin, strict=True):
            dividend, divisor = map(int, pair.split())
            due = (*expected(dividend, divisor), instructions(dividend, divisor))
            rows += 1
            most = max(most, due[2])
            if answer.split() != [str(number) for number in due]:
                wrong += 1
                print(f"{dividend} {divisor}: {answer.strip()}, not {due}")
    print(f"divide: {rows} pairs, {wrong} wrong, at most {most} instructions")
    return wrong == 0 and most <= 231


if sys.argv[1] == "write":
    write(int(sys.argv[2]), int(sys.argv[3]))
else:
    sys.exit(0 if test(sys.argv[2]) else 1)
