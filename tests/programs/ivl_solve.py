#!/usr/bin/env python3
"""The solver beside plain sets of members: usage: tests/programs/ivl_solve.py [PROGRAM] [--seconds N] [--lines N] [--seed N]"""

import itertools
import math
import operator
import unicodedata
from collections import namedtuple

from ivl_run import LEAST, joined, number, text
from lines import Commands, main

FORMS = {
    b"var": b"var x l u l u ..",
    b"cut": b"cut x l u l u ..",
    b"sum": b"sum x y z",
    b"different": b"different x y ..",
    b"limit": b"limit n",
    b"go": b"go on",
    b"show": b"show or show x",
    b"solve": b"solve or solve n",
    b"count": b"count",
    b"min": b"min x",
    b"max": b"max x",
}

RULES = b"x + n <= y, x + n != y, x + n = y or x + y = z"

# What each sign says of the numbers on its two sides.
SIGNS = {b"=": operator.eq, b"<=": operator.le, b"!=": operator.ne}

# A search visits one node for so much of the limit.
NARROWINGS_PER_NODE = 500
# A narrowing counts for one, and for one more for each so many pairs of runs of two of the domains of a sum, or for each so many runs of
# another rule's.
PAIRS = 256

SHORT = {"\t": "\\t", "\r": "\\r", "\n": "\\n"}


def escaped(word):
    """The word with its control characters as Rust's `char::escape_default` writes them."""
    shown = (SHORT.get(c, f"\\u{{{ord(c):x}}}") if unicodedata.category(c) == "Cc" else c for c in word.decode())
    return "".join(shown).encode()


class Rule(namedtuple("Rule", ["left", "by", "sign", "right"])):
    """The numbers of one variable or two on the left, and a shift, beside the number of the one on the right."""

    @property
    def names(self):
        return (*self.left, self.right)

    def holds(self, point):
        return SIGNS[self.sign](sum(point[name] for name in self.left) + self.by, point[self.right])

    def narrowed(self, domains):
        """The members that have support, for each variable in turn."""
        if len(self.left) == 2:
            return narrowed_by_sum(self.names, domains)
        (x,), y, says = self.left, self.right, SIGNS[self.sign]
        a, b = domains[x], domains[y]
        return {x: {u for u in a if any(says(u + self.by, v) for v in b)}, y: {v for v in b if any(says(u + self.by, v) for u in a)}}


def narrowed_by_sum(names, domains):
    x, y, z = names
    a, b, c = (domains[name] for name in names)
    return {
        x: {u for u in a if any(u + v in c for v in b)},
        y: {v for v in b if any(u + v in c for u in a)},
        z: {w for w in c if any(w - v in a for v in b)},
    }


def supported(domains, rules):
    """The members that are left when those without support are taken out, until all have some."""
    is_done = False
    while not is_done:
        is_done = True
        for rule in rules:
            for name, members in rule.narrowed(domains).items():
                is_done = is_done and members == domains[name]
                domains[name] = members
    return domains


def points(domains, rules):
    """The points that satisfy the rules, one after another, each as a list of numbers in the order of the variables."""
    # without a cut after each choice, wide domains that have no point take minutes or more
    left = supported(dict(domains), rules)
    if not all(left.values()):
        return
    chosen = next((name for name, members in left.items() if len(members) > 1), None)
    if chosen is None:
        yield [value for (value,) in left.values()]
        return
    for value in left[chosen]:
        yield from points({**left, chosen: {value}}, rules)


class Searched:
    """The answer to a line that searches: which solutions it finds, and whether it is unfinished, is left to the program."""

    def __init__(self, solver, line):
        self.rules = list(solver.rules)
        self.domains = supported(dict(solver.domains), self.rules)
        self.line = line
        self.nodes = solver.limit // NARROWINGS_PER_NODE
        self.is_known = not all(solver.domains.values())
        self.is_sure = self.is_known or 0 < self.nodes and 2 * math.prod(map(len, self.domains.values())) <= self.nodes

    def __repr__(self):
        return f"an answer to {self.line!r} over {self.domains}, {self.rules}"

    def first(self, count):
        """How many solutions there are, but no more than this."""
        return sum(1 for _ in itertools.islice(points(self.domains, self.rules), count))

    def number_of(self, name, text):
        """The number of a solution's line for a variable, or None if it is none of its domain."""
        return next((value for value in self.domains[name] if text == str(value).encode()), None)

    def point(self, line):
        """The solution that a line tells, or None."""
        words = line.split(b" ") if line else []
        if words[::2] != [escaped(name) for name in self.domains] or len(words) % 2:
            return None
        point = dict(zip(self.domains, map(self.number_of, self.domains, words[1::2])))
        if None in point.values() or not all(rule.holds(point) for rule in self.rules):
            return None
        return tuple(point.values())

    def is_end(self, line, found, most):
        """Whether this may be the last line after so many solutions."""
        if line == b"unfinished":
            return not self.is_sure
        if line == b"more possible":
            return found == most and not self.is_known
        return line == (b"ok" if found else b"no solution") and self.first(found + 1) == found


class Listed(Searched):
    """The answer to `solve`: so many solutions at most."""

    def __init__(self, solver, line, most):
        super().__init__(solver, line)
        self.most = most

    def after(self, written, place):
        found = set()
        while (end := written.find(b"\n", place)) >= 0:
            line, place = written[place:end], end + 1
            point = self.point(line)
            if point is None:
                return place if self.is_end(line, len(found), self.most) else None
            if point in found or len(found) == self.most:
                return None
            found.add(point)
        return None


class Counted(Searched):
    """The answer to `count`."""

    def after(self, written, place):
        lines = written[place:].split(b"\n", 2)
        if len(lines) < 3:
            return None
        says = b"count at least " if lines[1] in (b"unfinished", b"more possible") else b"count "
        if not lines[0].startswith(says) or not lines[0].removeprefix(says).isdigit():
            return None
        found = int(lines[0].removeprefix(says))
        is_right = self.first(found) == found and self.is_end(lines[1], found, None)
        return len(written) - len(lines[2]) if is_right else None


class Best(Searched):
    """The answer to `min` or `max`: a solution, and no other is better if it is the last word."""

    def __init__(self, solver, line, name, choose):
        super().__init__(solver, line)
        self.name, self.choose = name, choose
        # it may search ten halves, each with the nodes of a search
        self.is_sure = self.is_sure and 20 * math.prod(map(len, self.domains.values())) <= self.nodes

    def after(self, written, place):
        lines = written[place:].split(b"\n", 2)
        if len(lines) < 2:
            return None
        if lines[0] == b"no solution" or lines[0] == b"unfinished" and not self.is_sure:
            return place + len(lines[0]) + 1 if lines[0] == b"unfinished" or self.first(1) == 0 else None
        point = self.point(lines[0])
        if point is None or len(lines) < 3 or lines[1] not in (b"ok", b"unfinished"):
            return None
        is_right = self.is_best(point) if lines[1] == b"ok" else not self.is_sure
        return len(written) - len(lines[2]) if is_right else None

    def is_best(self, point):
        """Whether no solution is better."""
        value = point[list(self.domains).index(self.name)]
        better = {other for other in self.domains[self.name] if self.choose(other, value) != value}
        return next(points({**self.domains, self.name: better}, self.rules), None) is None


def stated(words):
    """What a line that has the form of a rule says: its left variable, its sign, its right variable, and the words that are added on its left
    and on its right; or None."""
    if len(words) == 3 and words[1] in SIGNS:
        x, sign, y = words
        return x, sign, y, None, None
    if len(words) == 5 and words[1] == b"+" and words[3] in SIGNS:
        x, _, word, sign, y = words
        return x, sign, y, word, None
    if len(words) == 5 and words[1] in SIGNS and words[3] == b"+":
        x, sign, y, _, word = words
        return x, sign, y, None, word
    return None


def rule_of(words):
    """The rule of a line of its form, or its fault as bytes; None for a line of another form."""
    parts = stated(words)
    if parts is None:
        return None
    x, sign, y, left, right = parts
    if left is not None and sign == b"=" and number(left) is None:
        return Rule((x, left), 0, b"=", y)
    for word in (left, right):
        if word is not None and number(word) is None:
            return b"bad number " + escaped(word)
    if right is not None and -number(right) >= 2**63:
        return b"out of range"
    return Rule((x,), number(left or b"0") - number(right or b"0"), sign, y)


class Solver(Commands):
    """Domains as sets of their members, in the order in which they were defined.

    Narrowings are made in rounds: a rule whose domains have changed since it narrowed waits for the next round, but for one
    by <= or != that would take nothing, and of a round that which waits last comes first. A rule that alone names a variable,
    rules by != aside, waits until no other does where a domain of several members has changed. This tells which domains an
    unfinished line leaves; those of any other are compared with `supported`.
    """

    def __init__(self):
        self.domains = {}
        self.rules = []
        self.is_settled = []
        self.round = []
        self.later = []
        self.late = []
        # for each rule, how many variables that had several members it alone names
        self.leaves = []
        self.limit = 10**6
        self.progress = b"ok"

    def answer_command(self, name, words):
        rule = rule_of([name, *words])
        if rule is not None:
            fault = rule if isinstance(rule, bytes) else self.fault_of_names(rule.names)
            return b"error: " + fault + b"\n" if fault else self.required([rule])
        fault = self.fault(name, words)
        return b"error: " + fault + b"\n" if fault else self.carried_out(name, words)

    def fault(self, name, words):
        """Why the words are not carried out, or None."""
        if name not in FORMS and words and words[0] in (b"+", *SIGNS):
            return b"write " + RULES
        if name not in FORMS:
            return b"unknown command " + escaped(name)
        if name == b"show":
            return self.fault_of_show(words)
        if name == b"count":
            return b"write " + FORMS[name] if words else None
        if name in (b"min", b"max") and len(words) != 1:
            return b"write " + FORMS[name]
        if name in (b"min", b"max"):
            return self.fault_of_show(words)
        if name == b"sum" and len(words) != 3 or name == b"different" and len(words) < 2:
            return b"write " + FORMS[name]
        if name in (b"sum", b"different"):
            return self.fault_of_names(words)
        if name == b"go":
            return None if words == [b"on"] else b"write " + FORMS[name]
        if name == b"limit" or name == b"solve" and words:
            return self.fault_of_number(name, words)
        if name == b"solve":
            return None
        if not words:
            return b"write " + FORMS[name]
        for word in words[1:]:
            if number(word) is None:
                return b"bad number " + escaped(word)
        if len(words) % 2 == 0 or (name == b"cut" and len(words) == 1):
            return b"write " + FORMS[name]
        return self.fault_of_pairs(name, words)

    def fault_of_pairs(self, name, words):
        if name == b"var" and words[0] in self.domains:
            return escaped(words[0]) + b" is defined already"
        if name == b"cut" and words[0] not in self.domains:
            return b"unknown variable " + escaped(words[0])
        if name == b"var" and number(words[0]) is not None:
            return words[0] + b" is a number"
        pairs = [(number(lower), number(upper)) for lower, upper in zip(words[1::2], words[2::2])]
        if any(bound < LEAST for pair in pairs for bound in pair):
            return b"out of range"
        return next((b"%d is above %d" % (lower, upper) for lower, upper in pairs if lower > upper), None)

    def fault_of_show(self, words):
        if len(words) > 1:
            return b"write " + FORMS[b"show"]
        if words and words[0] not in self.domains:
            return b"unknown variable " + escaped(words[0])
        return None

    def fault_of_number(self, name, words):
        if len(words) != 1:
            return b"write " + FORMS[name]
        if number(words[0]) is None or number(words[0]) < 0:
            return b"bad number " + escaped(words[0])
        return None

    def fault_of_names(self, names):
        """The first that is unknown, or else the first that comes again."""
        for name in names:
            if name not in self.domains:
                return b"unknown variable " + escaped(name)
        for place, name in enumerate(names, 1):
            if name in names[place:]:
                return escaped(name) + b" is named twice"
        return None

    def carried_out(self, name, words):
        if name == b"show":
            lines = [escaped(name) + b" " + self.text(self.domains[name]) + b"\n" for name in words or self.domains]
            return b"".join(lines) + self.state()
        if name == b"solve":
            return Listed(self, name, number(words[0]) if words else None)
        if name == b"count":
            return Counted(self, name)
        if name in (b"min", b"max"):
            return Best(self, name, words[0], min if name == b"min" else max)
        if name == b"limit":
            self.limit = number(words[0])
            return self.state()
        if name == b"sum":
            return self.required([Rule(tuple(words[:2]), 0, b"=", words[2])])
        if name == b"different":
            return self.required([Rule((x,), 0, b"!=", y) for x, y in itertools.combinations(words, 2)])
        if name in (b"var", b"cut"):
            numbers = [number(word) for word in words[1:]]
            members = {value for lower, upper in zip(numbers[::2], numbers[1::2]) for value in range(lower, upper + 1)}
            if name == b"var":
                self.domains[words[0]] = members
            else:
                self.replace({words[0]: self.domains[words[0]] & members})
        if name != b"var":
            self.settle()
        return self.state()

    def required(self, rules):
        """The answer to a line of rules, which hold from then on."""
        for rule in rules:
            if rule not in self.rules:
                self.count_leaves(rule)
                self.rules.append(rule)
                self.later.append(len(self.is_settled))
                self.is_settled.append(False)
        self.settle()
        return self.state()

    def count_leaves(self, rule):
        leaves = 0
        for name in rule.names if rule.sign != b"!=" else ():
            places = [place for place, other in enumerate(self.rules) if other.sign != b"!=" and name in other.names]
            leaves += not places and len(self.domains[name]) > 1
            if len(places) == 1:
                self.leaves[places[0]] = max(0, self.leaves[places[0]] - 1)
        self.leaves.append(leaves)

    def replace(self, domains):
        changed = [name for name, members in domains.items() if members != self.domains[name]]
        self.domains.update(domains)
        for name in changed:
            # the rules that need single numbers are looked at last
            latest_first = reversed(range(len(self.rules)))
            for place in sorted(latest_first, key=lambda place: self.rules[place].sign == b"!="):
                if self.is_settled[place] and name in self.rules[place].names and not self.stays_settled(self.rules[place]):
                    self.is_settled[place] = False
                    is_late = self.leaves[place] > 0 and len(self.domains[name]) > 1
                    (self.late if is_late else self.later).append(place)

    def stays_settled(self, rule):
        """Whether a rule is not looked at again though a domain of it has changed."""
        narrowed = rule.narrowed(self.domains)
        return rule.sign != b"=" and all(members and members == self.domains[name] for name, members in narrowed.items())

    def first(self):
        """The rule that narrows next, or None."""
        if not self.round:
            self.round, self.later = self.later, self.round
        if not self.round:
            self.round, self.late = self.late, self.round
        return self.round[-1] if self.round else None

    def settle(self):
        all_left = supported(dict(self.domains), self.rules)
        left = self.limit
        while (place := self.first()) is not None and (cost := self.cost(place)) <= left:
            self.replace(self.rules[place].narrowed(self.domains))
            self.round.pop()
            self.is_settled[place] = True
            left -= cost
        self.progress = b"ok" if all(self.is_settled) else b"unfinished"
        assert self.progress != b"ok" or self.domains == all_left
        assert all(all_left[name] <= members for name, members in self.domains.items())

    def cost(self, place):
        """What narrowing by a rule counts for."""
        runs = [len(joined((value, value) for value in self.domains[name])) for name in self.rules[place].names]
        seen = sum(runs) if len(runs) == 2 else sum(x * y for x, y in itertools.combinations(runs, 2))
        return 1 + seen // PAIRS

    def text(self, members):
        return text(joined((value, value) for value in members)).encode()

    def state(self):
        return self.progress + b"\n" if all(self.domains.values()) else b"no solution\n"


def random_pairs(dice):
    pairs = []
    for _ in range(dice.choice([0, 1, 1, 2, 3])):
        lower = dice.randrange(-10, 11)
        pairs += [lower, lower + (dice.randrange(6) if dice.random() < 0.95 else -1)]
    words = [str(value) for value in pairs]
    if words and dice.random() < 0.05:
        words[dice.randrange(len(words))] = dice.choice(["+1", "x", "1.5", str(2**63), "-"])
    if len(words) > 1 and dice.random() < 0.03:
        words[1] = words[0] = str(-(2**63))
    if dice.random() < 0.03:
        words.append("4")
    return words


def random_rule(dice, variable):
    """The words of a rule, most of them of its form."""
    x, y, sign = variable(), variable(), dice.choice(["=", "<=", "<=", "!=", "!="])
    by = str(dice.randrange(-6, 7)) if dice.random() < 0.95 else dice.choice(["+1", "q", "1.5", str(2**63), str(-(2**63)), str(2**63 - 1), "-"])
    forms = [[x, sign, y], [x, "+", by, sign, y], [x, sign, y, "+", by]]
    if dice.random() < 0.9:
        return dice.choice([*forms, [x, "+", variable(), "=", y]])
    words = dice.choice([*forms, [x, "+", y], ["frob", sign], [x, "+", variable(), sign, y]])
    words[dice.randrange(len(words))] = dice.choice(["+", "=", "<=", "==", "3", "var", "sum", "different"])
    return words + dice.choice([[], [], ["+"], ["3"]])


def random_line(dice):
    variable = lambda: dice.choice(["x", "y", "z", "u", "v", "w"] if dice.random() < 0.95 else ["q", "7", "-4", "+5", "\u00e9", "xx", "\t", "\x1b[2J", "\u00e9\\\x9b", "\0\x7f", "x\r\ry"])
    name = dice.choice(["var", "cut", "cut", "sum", "sum", "different", "", "", "", "show", "show", "limit", "go", "solve", "count", "min", "max"])
    if name == "sum":
        parts = dice.sample("xyzuvw", 3) if dice.random() < 0.8 else [variable() for _ in range(dice.choice([3, 3, 2, 4]))]
    elif name == "different":
        parts = dice.sample("xyzuvw", dice.randrange(2, 5)) if dice.random() < 0.8 else [variable() for _ in range(dice.choice([0, 1, 2, 3, 4]))]
    elif not name:
        name, *parts = random_rule(dice, variable)
    elif name == "show":
        parts = [] if dice.random() < 0.6 else [variable() for _ in range(dice.choice([1, 1, 1, 2]))]
    elif name == "solve":
        parts = [dice.choice(["0", "1", "2", "3", "20", "1000"])] if dice.random() < 0.5 else dice.choice([[]] * 9 + [["-1"], ["x"], ["1", "2"], [str(2**63)]])
    elif name == "count":
        parts = [] if dice.random() < 0.95 else ["1"]
    elif name in ("min", "max"):
        parts = [variable() for _ in range(dice.choice([1] * 19 + [0, 2]))]
    elif name == "limit":
        parts = [dice.choice(["0", "1", "2", "3", "5", "1000000", "1000000", "1000000"])] if dice.random() < 0.9 else dice.choice([[], ["-1"], ["x"], ["1", "2"], [str(2**63 - 1)]])
    elif name == "go":
        parts = ["on"] if dice.random() < 0.95 else dice.choice([[], ["on", "on"], ["off"]])
    else:
        parts = [variable()] + random_pairs(dice) if dice.random() < 0.98 else []
    return dice.choice([" ", " ", "  "]).join([name] + parts).encode() + dice.choice([b"", b"", b"\r", b" "])


def random_rules(dice, names):
    """A line of each kind of rule, over some of the names."""
    x, y = dice.sample(names, 2)
    sign, by = dice.choice(["=", "<=", "!="]), dice.randrange(-9, 10)
    lines = [f"{x} {sign} {y}", f"{x} + {by} {sign} {y}", f"{x} {sign} {y} + {by}", "different " + " ".join(dice.sample(names, dice.randrange(2, len(names))))]
    return [*lines, "{} + {} = {}".format(*dice.sample(names, 3))]


def rules_at(dice, point):
    """Lines of rules that hold at the point."""
    x, y = dice.sample(list(point), 2)
    gap = point[y] - point[x]
    by = dice.randrange(gap - 4, gap)
    others = [name for name in point if point[name] != point[x]]
    lines = [f"{x} + {gap} = {y}", f"{x} = {y} + {-gap}", f"{x} + {by} <= {y}", f"{x} <= {y} + {-by}", f"{x} + {by} != {y}", f"{y} != {x} + {by}"]
    lines += [f"different {x} {name}" for name in others]
    lines += [f"{x} + {y} = {z}" for z in point if z not in (x, y) and point[x] + point[y] == point[z]]
    return lines + ([f"{x} != {y}"] if gap else [f"{x} = {y}"]) + ([f"{x} <= {y}"] if gap >= 0 else [])


def stopped_lines(dice, count):
    """Wide domains and few narrowings a line, so that many lines are unfinished."""
    names = "xyzuvw"
    lines = [b"limit %d" % dice.randrange(4)]
    for name in names:
        lower = dice.randrange(-40, 10)
        lines.append(b"var %s %d %d" % (name.encode(), lower, lower + dice.randrange(20, 80)))
    for _ in range(count):
        lower = dice.randrange(-60, 20)
        cut = f"cut {dice.choice(names)} {lower} {lower + dice.randrange(20, 90)}"
        line = dice.choice(["sum " + " ".join(dice.sample(names, 3)), dice.choice(random_rules(dice, names)), cut, "go on", "show", "solve 3", f"min {dice.choice(names)}", "limit 1", f"limit {dice.randrange(5)}"])
        lines.append(line.encode())
    return lines


def searched_lines(dice, count):
    """Small domains with rules that have solutions, and many searches."""
    names = dice.sample(["x", "y", "z", "u", "v\t", "\u00e9"], dice.randrange(3, 7))
    point = {name: dice.randrange(-3, 4) for name in names}
    lines = ["solve", "count"]
    for name in names:
        numbers = sorted(point[name] + dice.randrange(-2, 3) for _ in range(dice.randrange(3)))
        lines.append(" ".join(["var", name, *(str(value) for value in [point[name], *numbers] for _ in "lu")]))
    for _ in range(count):
        x, y = dice.sample(names, 2)
        sums = [f"sum {x} {y} {z}" for z in names if z not in (x, y) and point[x] + point[y] == point[z]]
        cut = f"cut {x} {dice.randrange(-5, 1)} {dice.randrange(1, 6)}"
        rules = [*sums, dice.choice(rules_at(dice, point)), dice.choice(rules_at(dice, point))]
        lines.append(dice.choice([cut, "show", *rules, *["solve", "count", f"solve {dice.randrange(6)}", f"min {x}", f"max {x}"] * 2]))
    return [line.encode() for line in lines]


def random_lines(dice, count):
    kind = dice.random()
    if kind < 0.2:
        return stopped_lines(dice, min(count, 20))
    if kind < 0.3:
        return holed_lines(dice, min(count, 20))
    if kind < 0.5:
        return searched_lines(dice, min(count, 20))
    # short sessions, so that many begin anew before their domains are empty
    first = [b"var %s %d %d" % (name, lower, lower + dice.randrange(0, 12)) for name in (b"x", b"y", b"z", b"u") for lower in [dice.randrange(-6, 6)]]
    return first + [random_line(dice) for _ in range(min(count, 40))]


def holed_lines(dice, count):
    """Domains of many runs, so that a narrowing may count for more than a line may make."""
    names = "xyzu"
    lines = [b"limit %d" % dice.randrange(1, 8)]
    for name in names:
        numbers = sorted(dice.sample(range(60), dice.randrange(8, 20)))
        lines.append(" ".join(["var", name, *(str(value) for value in numbers for _ in "lu")]).encode())
    for _ in range(count):
        lower = dice.randrange(-5, 50)
        cut = f"cut {dice.choice(names)} {lower} {lower + dice.randrange(10, 60)}"
        line = dice.choice(["sum " + " ".join(dice.sample(names, 3)), dice.choice(random_rules(dice, names)), cut, "go on", "go on", "show", f"limit {dice.randrange(12)}"])
        lines.append(line.encode())
    return lines


# The last sum empties the domains one member a round, which takes seconds.
QUICK = [b"limit 1000000000", b"var a 0 40000000", b"var b 0 40000000", b"var one 1 1", b"sum a one b", b"show"]

if __name__ == "__main__":
    main("ivl_solve", Solver, random_lines, b"show", [(QUICK, 9, b"sum b one a"), (QUICK, 9, b"b + 1 = a")])
