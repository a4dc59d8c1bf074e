#!/usr/bin/env python3
"""Exact numbers, worked out independently of the code that they are compared with.

    python3 tests/number_oracle.py          writes crates/number_cases/stdin and stdout
    python3 tests/number_oracle.py --check  writes nothing, fails if a file differs

A number is a polynomial in w with fractions as coefficients, the lowest first, taken
modulo w^4 + 1; the root of two is w - w^3. Division by the root of two is the product
with half of it, and it can be done if all coefficients are then whole. Amplitudes are
compared as such polynomials. A share is a fraction, which is compared with the whole
number below it.

The cases are those of this file and pseudo-random ones of a fixed seed. Before
anything is written, the answers are compared with those worked out by hand.
"""

import random
import sys
from fractions import Fraction
from itertools import product as choices
from pathlib import Path

CRATE = Path(__file__).resolve().parent.parent / "crates/number_cases"
SEED = 20_011

LEAST_I32, MOST_I32 = -(2**31), 2**31 - 1
LEAST_I64, MOST_I64 = -(2**63), 2**63 - 1
MOST_U32 = 2**32 - 1
MOST_U64 = 2**64 - 1

# Powers from here on are not worked out, since the answer is plain.
FAR_POWER = 4096

# A case with the answer worked out by hand.
BY_HAND = {
    # 2 is the root of two times itself, w - w^3 is the root of two, and w + w^3 is i times it
    "divide 0 0 0 0": "0 0 0 0",
    "divide 0 0 0 2": "-1 0 1 0",
    "divide -1 0 1 0": "0 0 0 1",
    "divide 1 0 1 0": "0 1 0 0",
    "divide 1 1 1 1": "0 1 1 0",
    "divide 0 0 0 1": "-",
    "divide 0 0 1 0": "-",
    "divide 0 1 0 0": "-",
    "divide 1 0 0 0": "-",
    "divide 1 1 1 2": "-",
    "divide 1 1 2 1": "-",
    "divide 0 0 0 -2147483648": "1073741824 0 -1073741824 0",
    "divide -2147483648 0 -2147483648 0": "0 -2147483648 0 0",
    "divide 2147483647 0 2147483647 0": "0 2147483647 0 0",
    "divide 2147483646 0 -2147483648 0": "0 -1 0 -2147483647",
    "divide 0 -2147483648 0 2147483646": "-2147483647 0 -1 0",
    # at another power, from either side
    "same 0 0 0 1 0 0 0 0 1 0": "true",
    "same 0 0 0 1 0 0 0 0 2 2": "true",
    "same 0 0 0 2 2 0 0 0 1 0": "true",
    "same 0 0 0 1 0 -1 0 1 0 1": "true",
    "same -1 0 1 0 1 0 0 0 1 0": "true",
    "same 0 1 0 0 3 1 0 1 0 4": "true",
    "same 0 0 0 1 0 0 0 0 1 1": "false",
    "same 0 0 0 1 0 0 0 0 2 1": "false",
    "same 0 0 0 1 0 0 0 0 2 4": "false",
    "same 0 0 0 1 0 0 0 0 -2 2": "false",
    "same 0 0 0 1 0 0 0 0 3 2": "false",
    "same 0 0 0 1 0 0 0 1 2 2": "false",
    "same 0 0 0 1 0 1 0 1 0 1": "false",
    "same 0 0 0 1 0 0 1 0 0 0": "false",
    # zero is the same at every power
    "same 0 0 0 0 0 0 0 0 0 200": "true",
    "same 0 0 0 0 200 0 0 0 0 1": "true",
    "same 0 0 0 0 0 0 0 0 1 200": "false",
    "same 0 0 0 1 0 0 0 0 0 0": "false",
    # 2^31 is the root of two to the power of 62
    "same 0 0 0 -1 0 0 0 0 -2147483648 62": "true",
    "same 0 0 0 1 0 0 0 0 -2147483648 62": "false",
    "same 0 0 0 1 0 0 0 0 1073741824 60": "true",
    "same 0 0 0 1 0 0 0 0 2147483647 62": "false",
    "same 0 0 0 1 0 0 0 0 1073741823 60": "false",
    "same 0 0 0 1 4294967295 0 0 0 1 4294967295": "true",
    "same 0 0 0 1 4294967293 0 0 0 2 4294967295": "true",
    "same 0 0 0 1 4294967294 0 0 0 1 4294967295": "false",
    "same 0 0 0 1 0 0 0 0 1 4294967295": "false",
    "amplitude 0 0 0 1 1": "0 0 0 1 1",
    "amplitude 1 -2 3 -4 5": "1 -2 3 -4 5",
    "squares 0": "0",
    "squares 1": "1",
    "squares 2": "2",
    "squares 3": "3",
    "squares 200": "200",
    "squares 4294967295": "4294967295",
    "weight 0 0 0": "0 0 0 0",
    "weight 1 0 0": "1 0 0 1000",
    "weight 1 0 1": "1 0 1 500",
    "weight 1 0 3": "1 0 3 125",
    # 62 and a half, 187 and a half; 31 and a quarter, 93 and three quarters
    "weight 1 0 4": "1 0 4 63",
    "weight 3 0 4": "3 0 4 188",
    "weight 1 0 5": "1 0 5 31",
    "weight 3 0 5": "3 0 5 94",
    "weight 1 0 10": "1 0 10 1",
    "weight 1 0 11": "1 0 11 0",
    "weight 2 1 2": "2 1 2 -",
    "weight 2 -1 2": "2 -1 2 -",
    "weight 0 1 0": "0 1 0 -",
    "weight 18446744073709551615 0 0": "18446744073709551615 0 0 18446744073709551615000",
    "weight 18446744073709551615 0 64": "18446744073709551615 0 64 1000",
    # a little less than 1000 / 2^9, 1000 / 2^10 and 1000 / 2^11
    "weight 18446744073709551615 0 73": "18446744073709551615 0 73 2",
    "weight 18446744073709551615 0 74": "18446744073709551615 0 74 1",
    "weight 18446744073709551615 0 75": "18446744073709551615 0 75 0",
    "weight 18446744073709551615 0 4294967295": "18446744073709551615 0 4294967295 0",
    "weight 1 9223372036854775807 1": "1 9223372036854775807 1 -",
    "weight 1 -9223372036854775808 1": "1 -9223372036854775808 1 -",
}


# ---- numbers


def product(p, q):
    """The product of two polynomials modulo w^4 + 1."""
    result = [Fraction(0)] * 4
    for i, x in enumerate(p):
        for j, y in enumerate(q):
            result[(i + j) % 4] += x * y if i + j < 4 else -x * y
    return result


ROOT_TWO = [Fraction(0), Fraction(1), Fraction(0), Fraction(-1)]
HALF_ROOT_TWO = [x / 2 for x in ROOT_TWO]


def polynomial(quadruple):
    """The number of a quadruple, which has the coefficient of w^3 first."""
    return [Fraction(x) for x in reversed(quadruple)]


def whole_quadruple(p):
    """The quadruple of a number, or none where a coefficient is not whole."""
    if any(x.denominator != 1 for x in p):
        return None
    return tuple(x.numerator for x in reversed(p))


def times_root_two(quadruple):
    return whole_quadruple(product(polynomial(quadruple), ROOT_TWO))


def over_powers(quadruple, power):
    """The number divided by the root of two as often as `power` says; twice is by 2."""
    number = polynomial(quadruple)
    if power % 2:
        number = product(number, HALF_ROOT_TWO)
    return [x / 2 ** (power // 2) for x in number]


def fits(quadruple):
    return all(LEAST_I32 <= x <= MOST_I32 for x in quadruple)


def share(whole, root, power):
    if root != 0:
        return "-"
    if power > FAR_POWER:
        return 0  # any whole part of 64 bits is then far below half a thousandth
    thousandths = Fraction(1000 * whole, 2**power)
    below = thousandths.numerator // thousandths.denominator
    return below if thousandths - below < Fraction(1, 2) else below + 1


# ---- answers


def spaced(*words):
    return " ".join(map(str, words))


def divide(*quadruple):
    divided = whole_quadruple(product(polynomial(quadruple), HALF_ROOT_TWO))
    return "-" if divided is None else spaced(*divided)


def same(*numbers):
    *first, j = numbers[:5]
    *second, k = numbers[5:]
    if abs(j - k) > FAR_POWER:
        equal = not any(first + second)  # no quadruple but 0 can be divided so often
    else:
        lower = min(j, k)
        equal = over_powers(first, j - lower) == over_powers(second, k - lower)
    return "true" if equal else "false"


def amplitude(*numbers):
    return spaced(*numbers)


def squares(power):
    """The square of the root of two is a power of 2, and divides as often as the root does."""
    square = whole_quadruple(product(ROOT_TWO, ROOT_TWO))
    return power * (square[3].bit_length() - 1)


def weight(whole, root, power):
    return spaced(whole, root, power, share(whole, root, power))


ANSWERS = {f.__name__: f for f in (divide, same, amplitude, squares, weight)}


def answer(case):
    name, *numbers = case.split(" ")
    return str(ANSWERS[name](*map(int, numbers)))


# ---- cases


def edges():
    """The ends of the integers' ranges, and every power of a weight up to 200."""
    ends = (LEAST_I32, LEAST_I32 + 1, MOST_I32 - 1, MOST_I32)
    for quadruple in choices(ends, repeat=4):
        yield spaced("divide", *quadruple)
    for quadruple in choices((LEAST_I32, 0, MOST_I32), repeat=4):
        yield spaced("amplitude", *quadruple, 0)
        yield spaced("same", *quadruple, 3, *quadruple, 3)
        yield spaced("same", *quadruple, 3, *quadruple, 4)
    for power in (0, 1, 200, MOST_U32):
        yield spaced("amplitude", -1, 0, 1, -10, power)
    for root in (LEAST_I64, LEAST_I64 + 1, -1, 0, 1, MOST_I64):
        for whole in (0, 1, MOST_U64):
            yield spaced("weight", whole, root, 2)
    for power in range(201):
        for whole in (1, MOST_U64 // 2 + 1, MOST_U64):
            yield spaced("weight", whole, 0, power)


def halves(rng):
    """Weights with exactly a half to round, and with the next whole part on either side.

    1000 · whole / 2^power is a half and a whole number exactly if 2^(power - 4) divides
    the whole part and no higher power of 2 does.
    """
    for power in range(4, 68):
        odd = 2 * rng.randrange(2 ** (67 - power)) + 1
        whole = odd * 2 ** (power - 4)
        for beside in (-1, 0, 1):
            if whole + beside <= MOST_U64:
                yield spaced("weight", whole + beside, 0, power)


def some_quadruple(rng):
    most = 2 ** rng.randrange(1, 32) - 1
    return tuple(rng.randint(-most, most) for _ in range(4))


def raised(rng, quadruple):
    """The quadruple times the root of two, some times, and how often; its entries fit."""
    count = 0
    for _ in range(rng.randrange(64)):
        larger = times_root_two(quadruple)
        if not fits(larger):
            break
        quadruple, count = larger, count + 1
    return quadruple, count


def replaced(quadruple, part, x):
    return (*quadruple[:part], x, *quadruple[part + 1 :])


def comparisons(rng):
    """Equal amplitudes at different powers and, beside them, nearly equal ones."""
    for _ in range(150):
        low = some_quadruple(rng)
        power = rng.randrange(200)
        high, count = raised(rng, low)
        part = rng.randrange(4)
        x = high[part]
        for other, other_power in (
            (high, power + count),
            (high, power + count + 1),
            (replaced(high, part, x - 1 if x > 0 else x + 1), power + count),
            (replaced(high, part, -x), power + count),
        ):
            pair = [(*low, power), (*other, other_power)]
            rng.shuffle(pair)
            if fits(other):
                yield spaced("same", *pair[0], *pair[1])


def divisions(rng):
    """Quadruples, of which about a quarter can be divided, and root two times them."""
    for _ in range(150):
        quadruple = some_quadruple(rng)
        yield spaced("divide", *quadruple)
        larger = times_root_two(quadruple)
        if fits(larger):
            yield spaced("divide", *larger)


def weights(rng):
    for _ in range(300):
        whole = rng.getrandbits(rng.randrange(1, 65))
        root = rng.choice((0, 0, 0, rng.randint(-100, 100), rng.randint(LEAST_I64, MOST_I64)))
        yield spaced("weight", whole, root, rng.randrange(201))


def amplitudes(rng):
    for _ in range(50):
        yield spaced("amplitude", *some_quadruple(rng), rng.randrange(201))


def cases():
    rng = random.Random(SEED)
    result = [*BY_HAND, *edges()]
    for some in (halves, divisions, comparisons, weights, amplitudes):
        result += some(rng)
    return result


def files():
    """What the program reads, and what it must write."""
    for case, expected in BY_HAND.items():
        if answer(case) != expected:
            sys.exit(f"{case}: by hand {expected}, worked out {answer(case)}")
    every = cases()
    return {
        CRATE / "stdin": "".join(case + "\n" for case in every),
        CRATE / "stdout": "".join(answer(case) + "\n" for case in every),
    }


def main(arguments):
    if arguments not in ([], ["--check"]):
        sys.exit(__doc__)
    for path, text in files().items():
        if not arguments:
            path.write_text(text)
        elif not path.exists() or path.read_text() != text:
            sys.exit(f"{path} differs from what this script generates")


if __name__ == "__main__":
    main(sys.argv[1:])
