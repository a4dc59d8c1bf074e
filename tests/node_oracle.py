"""Writes what crates/node_figures must print, from truth tables alone.

A function of n qubits is its truth table, qubit 0 the highest bit of an index. Its parts are the functions, not constant,
that come from it by fixing none or more of the first qubits. A store holds the parts of all that was made, and refuses a
function with which they would outnumber its limit.
"""

N = 16
SIZE = 1 << N


def table(value):
    """The truth table of a function of an index."""
    return bytes(value(i) for i in range(SIZE))


def bit(i, qubit):
    return i >> (N - 1 - qubit) & 1


def reduced(part):
    """The table without the first qubits that do not matter."""
    while len(part) > 1 and part[: len(part) // 2] == part[len(part) // 2 :]:
        part = part[: len(part) // 2]
    return part


def parts(f):
    found = set()
    for fixed in range(N + 1):
        length = SIZE >> fixed
        for start in range(0, SIZE, length):
            part = reduced(f[start : start + length])
            if len(part) > 1:
                found.add(part)
    return found


def literal(qubit):
    return table(lambda i: bit(i, qubit))


def odd_sum():
    """The functions made on the way, in their order."""
    made = []
    total = bytes(SIZE)
    for q in range(N):
        v = literal(q)
        total = bytes(a ^ b for a, b in zip(total, v))
        made += [v, total]
    return made


def carry(first, second):
    """The carries of two numbers whose bits, lowest first, are at these qubits."""
    made = []
    c = bytes(SIZE)
    for a, b in zip(first, second):
        va, vb = literal(a), literal(b)
        c = bytes((x & y) | (x & z) | (y & z) for x, y, z in zip(va, vb, c))
        made += [va, vb, c]
    return made


def with_bit_set(made, qubit):
    f = made[-1]
    mask = 1 << (N - 1 - qubit)
    return made + [bytes(f[i | mask] for i in range(SIZE))]


def held_until(made, limit):
    """What is held when the first function is refused; all, if none is."""
    held = set()
    for f in made:
        more = held | parts(f)
        if len(more) > limit:
            return held
        held = more
    return held


def report(name, made):
    f = made[-1]
    needed = len(held_until(made, SIZE * N))
    print(f"{name}: {len(parts(f))} nodes, {sum(f)} ones")
    print(f"  needs a limit of {needed}")
    print(f"  at {needed - 1}: refused 9 {needed - 1}")
    first = [literal(0)]
    print(f"  then {len(held_until(first + made, needed - 1))} held, and the first literal has {sum(first[0])} ones")


def main():
    evens, odds = range(0, 16, 2), range(1, 16, 2)
    report("odd sum", odd_sum())
    interleaved = carry(evens, odds)
    report("carry, interleaved", interleaved)
    report("carry, blocked", carry(range(8), range(8, 16)))
    report("carry, interleaved, a bit set", with_bit_set(interleaved, 12))


main()
