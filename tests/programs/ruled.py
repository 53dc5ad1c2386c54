"""Puzzles as lines of ivl_solve: the variables, and rules between them."""

import itertools

# First digit, second digit and digit of the sum, in each column from the right.
COLUMNS = ["dey", "nre", "eon", "smo"]


def variables(names, *numbers):
    return [" ".join(map(str, ["var", name, *numbers])) for name in names]


def different(names):
    return "different " + " ".join(names)


def queens(count):
    """The row of each queen in its column."""
    names = [f"q{column}" for column in range(1, count + 1)]
    lines = [*variables(names, 1, count), different(names)]
    for (i, x), (j, y) in itertools.combinations(enumerate(names), 2):
        lines += [f"{x} + {j - i} != {y}", f"{x} != {y} + {j - i}"]
    return lines


def letters():
    """SEND + MORE = MONEY, each letter another digit. A column adds to its digit and ten times what it carries."""
    lines = [*variables("s", 1, 9), *variables("end", 0, 9), *variables("m", 1, 9), *variables("ory", 0, 9), different("sendmory")]
    lines += variables(["none"], 0, 0)
    carry = "none"
    for place, (x, y, digit) in enumerate(COLUMNS):
        for name, numbers in {"both": (0, 18), "all": (0, 19), "carry": (0, 1), "nines": (0, 0, 9, 9), "tens": (0, 0, 10, 10)}.items():
            lines += variables([f"{name}{place}"], *numbers)
        lines += [f"{x} + {y} = both{place}", f"both{place} + {carry} = all{place}"]
        carry = f"carry{place}"
        lines += [f"{carry} + nines{place} = tens{place}", f"{digit} + tens{place} = all{place}"]
    return [*lines, f"{carry} = m"]


def magic():
    """A square of the numbers from 1 to 9, whose rows, columns and diagonals add to 15."""
    lines = [*variables("abcdefghi", 1, 9), different("abcdefghi"), *variables(["total"], 15, 15)]
    for x, y, z in ["abc", "def", "ghi", "adg", "beh", "cfi", "aei", "ceg"]:
        lines += [*variables([x + y], 2, 18), f"{x} + {y} = {x}{y}", f"{x}{y} + {z} = total"]
    return lines


def golomb(count, length):
    """Marks on a ruler of this length, any two of them another distance apart."""
    lines = [*variables(["m0"], 0, 0), *variables((f"m{mark}" for mark in range(1, count - 1)), 1, length), *variables([f"m{count - 1}"], length, length)]
    pairs = list(itertools.combinations(range(count), 2))
    lines += variables((f"d{x}-{y}" for x, y in pairs), 1, length)
    lines += [f"m{x} + d{x}-{y} = m{y}" for x, y in pairs]
    return [*lines, different(f"d{x}-{y}" for x, y in pairs)]


def langford(count):
    """Each number to this one stands twice in a row, with so many others between."""
    numbers = range(1, count + 1)
    names = [name for number in numbers for name in (f"first{number}", f"last{number}")]
    return [*variables(names, 1, 2 * count), *(f"first{n} + {n + 1} = last{n}" for n in numbers), different(names)]


def coins(total):
    """So many coins of 1, 2 and 5 that they add to the total."""
    lines = variables(["ones", "twos", "twos'", "fives", "fives'"], 0, total)
    lines += variables(["of-twos", "ten-halves", "ten-halves'", "of-fours", "of-fives", "small"], 0, 5 * total)
    lines += [*variables(["total"], total, total), "twos = twos'", "twos + twos' = of-twos", "fives = fives'", "fives + fives' = ten-halves"]
    lines += ["ten-halves = ten-halves'", "ten-halves + ten-halves' = of-fours", "of-fours + fives = of-fives"]
    return [*lines, "ones + of-twos = small", "small + of-fives = total"]
