"""The stored run of ivl_solve: its lines, and what it is to answer.

The numbers of solutions are known, the digits of the addition are found by trying all, and the times of tasks are lengths of paths. Where a
line tells several solutions, they stand in the order in which the program finds them, which is not promised.
"""

import itertools

import ruled

SUMS = [
    ("var adult 12 12 15 15 18 18", "ok"),
    ("var child 7 9", "ok"),
    ("var pair 0 99", "ok"),
    ("var family 30 31", "ok"),
    ("sum adult child pair", "ok"),
    ("show", "adult {[12..12][15..15][18..18]}\nchild [7..9]\npair [19..27]\nfamily [30..31]\nok"),
    ("limit 0", "ok"),
    ("sum pair child family", "unfinished"),
    ("show", "adult {[12..12][15..15][18..18]}\nchild [7..9]\npair [19..27]\nfamily [30..31]\nunfinished"),
    ("limit many", "error: bad number many"),
    ("limit 1000", "unfinished"),
    ("go on", "ok"),
    ("show", "adult {[12..12][15..15]}\nchild [7..9]\npair [21..24]\nfamily [30..31]\nok"),
    ("cut child 8 9", "ok"),
    ("show", "adult {[12..12][15..15]}\nchild [8..9]\npair {[21..21][23..23]}\nfamily [30..31]\nok"),
    ("limit 1000000", "ok"),
    ("count", "count 2\nok"),
    ("solve", "adult 15 child 8 pair 23 family 31\nadult 12 child 9 pair 21 family 30\nok"),
    ("solve 1", "adult 15 child 8 pair 23 family 31\nmore possible"),
    ("limit 1", "ok"),
    ("solve", "unfinished"),
    ("count", "count at least 0\nunfinished"),
    ("limit 1000000", "ok"),
    ("solve 2", "adult 15 child 8 pair 23 family 31\nadult 12 child 9 pair 21 family 30\nok"),
    ("min adult", "adult 12 child 9 pair 21 family 30\nok"),
    ("max adult", "adult 15 child 8 pair 23 family 31\nok"),
    ("min family", "adult 12 child 9 pair 21 family 30\nok"),
    ("max child", "adult 12 child 9 pair 21 family 30\nok"),
    ("min uncle", "error: unknown variable uncle"),
    ("min", "error: write min x"),
    ("max adult child", "error: write max x"),
    ("limit 0", "ok"),
    ("max adult", "unfinished"),
    ("limit 1000000", "ok"),
    ("cut uncle 1 2", "error: unknown variable uncle"),
    ("var child 1 2", "error: child is defined already"),
    ("sum pair pair family", "error: pair is named twice"),
    ("show family", "family [30..31]\nok"),
    ("show uncle", "error: unknown variable uncle"),
    ("cut adult", "error: write cut x l u l u .."),
    ("var to\tmorrow 1 2", "ok"),
    ("show to\tmorrow", "to\\tmorrow [1..2]\nok"),
    ("show adult child", "error: write show or show x"),
    ("solve many", "error: bad number many"),
    ("solve 1 2", "error: write solve or solve n"),
    ("solve -1", "error: bad number -1"),
    ("count pair", "error: write count"),
    ("cut family 31 many", "error: bad number many"),
    ("cut family 31 31", "ok"),
    ("show", "adult [15..15]\nchild [8..8]\npair [23..23]\nfamily [31..31]\nto\\tmorrow [1..2]\nok"),
]

FORMS = "error: write x + n <= y, x + n != y, x + n = y or x + y = z"
HIGH = 2**63

# Each changes nothing.
REFUSED = [
    *[("adult + many <= child", "error: bad number many"), ("adult <= child + many", "error: bad number many")],
    *[("adult + 1.5 != child", "error: bad number 1.5"), ("adult = child + pair", "error: bad number pair")],
    (f"adult + {HIGH} <= child", f"error: bad number {HIGH}"),
    (f"adult + {HIGH} = child", f"error: unknown variable {HIGH}"),
    *[(f"adult {sign} child + -{HIGH}", "error: out of range") for sign in ("<=", "!=", "=")],
    *[(f"uncle {sign} aunt", "error: unknown variable uncle") for sign in ("<=", "!=", "=")],
    *[(f"adult {sign} aunt", "error: unknown variable aunt") for sign in ("<=", "!=", "=")],
    *[(f"adult + 3 {sign} adult", "error: adult is named twice") for sign in ("<=", "!=", "=")],
    *[("adult + child = uncle", "error: unknown variable uncle"), ("adult + uncle = uncle", "error: unknown variable uncle")],
    *[("adult + child = adult", "error: adult is named twice"), ("pair + pair = child", "error: pair is named twice")],
    *[(line, FORMS) for line in ("adult <=", "adult +", "adult + 3", "adult + 3 <=", "adult <= child 3", "adult + 3 <= child 4", "adult = = = =")],
    *[("adult + 3 < child", FORMS), ("adult < child", "error: unknown command adult"), ("adult 3 + <= child", "error: unknown command adult")],
    *[("sum + 3", "error: write sum x y z"), ("count <=", "error: write count"), ("cut = 1", "error: unknown variable cut")],
    *[("var 3 1 9", "error: 3 is a number"), ("var -4", "error: -4 is a number"), ("var aunt 9 1", "error: 9 is above 1")],
    *[("var aunt 1 9 5 4 3 2", "error: 5 is above 4"), ("cut adult 15 18 9 8", "error: 9 is above 8"), ("show aunt", "error: unknown variable aunt")],
    *[("different", "error: write different x y .."), ("different adult", "error: write different x y ..")],
    *[("different adult uncle aunt", "error: unknown variable uncle"), ("different pair adult child adult pair", "error: pair is named twice")],
]


TASKS = 30
HORIZON = 100

# Once there is no solution.
ENDED = [
    ("show adult", "adult [15..15]\nno solution"),
    ("cut adult 12 12", "no solution"),
    ("show adult", "adult {}\nno solution"),
    ("show family", "family {}\nno solution"),
    ("show to\tmorrow", "to\\tmorrow [1..1]\nno solution"),
    ("adult <= child", "no solution"),
    ("solve", "no solution"),
    ("count", "count 0\nno solution"),
    ("min adult", "no solution"),
    ("max adult", "no solution"),
    ("solve 0", "no solution"),
    ("limit 0", "no solution"),
    ("count", "count 0\nno solution"),
    ("max family", "no solution"),
]


class Run:
    """The lines so far, each with its answer; the variables of models in order, and the number of each that is left with one."""

    def __init__(self):
        self.said = []
        self.names = []
        self.point = {}

    def ok(self, *lines):
        self.said += [(line, "ok") for line in lines]

    def model(self, lines):
        self.names += [line.split(" ")[1] for line in lines if line.startswith("var ")]
        self.ok(*lines)

    def show(self, name, lower, upper):
        self.said.append((f"show {name}", f"{name} [{lower}..{upper}]\nok"))

    def fix(self, point):
        """Cuts each variable to its number."""
        self.ok(*(f"cut {name} {number} {number}" for name, number in point.items()))
        self.point |= point


def colours(run):
    """The map of Australia: the colours of wa and nt leave one for each other region of the main land."""
    run.model(ruled.variables(["wa", "nt", "sa", "q", "nsw", "v", "t"], 1, 3))
    run.ok("wa != nt", "wa != sa", "nt != sa", "nt != q", "sa != q", "sa != nsw", "sa != v", "q != nsw", "nsw != v")
    run.said.append(("count", "count 18\nok"))
    run.ok("different wa nt sa", "cut wa 1 1", "cut nt 2 2", "t = wa + 2")
    run.point |= {"wa": 1, "nt": 2, "sa": 3, "q": 1, "nsw": 2, "v": 1, "t": 3}
    for region in ["wa", "nt", "sa", "q", "nsw", "v", "t"]:
        run.show(region, run.point[region], run.point[region])


def queens(run):
    """Eight queens: 92 solutions, and one of them."""
    run.model(ruled.queens(8))
    run.said.append(("count", "count 92\nok"))
    run.fix(dict(zip(run.names[-8:], [1, 5, 8, 6, 3, 7, 2, 4])))


def added(digits):
    """The numbers of all variables of SEND + MORE = MONEY, or None if the digits do not fit."""
    point = dict(zip("sendmory", digits))
    send, more, money = (int("".join(str(point[letter]) for letter in word)) for word in ("send", "more", "money"))
    if send + more != money:
        return None
    carry = 0
    for place, (x, y, _) in enumerate(ruled.COLUMNS):
        both = point[x] + point[y]
        point |= {f"both{place}": both, f"all{place}": both + carry}
        carry = (both + carry) // 10
        point |= {f"carry{place}": carry, f"nines{place}": 9 * carry, f"tens{place}": 10 * carry}
    return {**point, "none": 0}


def letters(run):
    """SEND + MORE = MONEY, each letter another digit: one solution."""
    # five digits are the sum of four and four, so that the first of them is 1
    others = itertools.permutations([0, *range(2, 10)], 7)
    [found] = filter(None, (added([*digits[:4], 1, *digits[4:]]) for digits in others if digits[0]))
    run.model(ruled.letters())
    point = {**run.point, **found}
    text = " ".join(f"{name} {point[name]}" for name in run.names)
    run.said += [("solve", text + "\nok"), ("count", "count 1\nok"), (f"max {run.names[-1]}", text + "\nok")]
    run.fix(found)


def lengths(times, after):
    """The length of the longest path that leads to each task, and of the longest from its beginning."""
    before = [0] * TASKS
    behind = [0] * TASKS
    for task in range(TASKS):
        for other in after[task]:
            before[other] = max(before[other], before[task] + times[task])
    for task in reversed(range(TASKS)):
        behind[task] = times[task] + max((behind[other] for other in after[task]), default=0)
    return before, behind


def timetable(run):
    """Thirty tasks, each of which ends before some others begin. Each may begin within what the longest paths leave; and no path fits in less."""
    times = [1 + (7 * task * task + 3 * task) % 6 for task in range(TASKS)]
    after = [[other for other in (task + 1 + task % 3, task + 4 + task % 5) if other < TASKS] for task in range(TASKS)]
    before, behind = lengths(times, after)
    run.model(ruled.variables([*(f"t{task}" for task in range(TASKS)), "end"], 0, HORIZON))
    for task in range(TASKS):
        run.ok(*(f"t{task} + {times[task]} <= t{other}" if other % 2 else f"t{task} <= t{other} + {-times[task]}" for other in after[task]))
        run.ok(f"t{task} + {times[task]} <= end")
    least = max(map(sum, zip(before, times)))
    for most in (HORIZON, least):
        run.ok(f"cut end 0 {most}")
        for task in range(TASKS):
            run.show(f"t{task}", before[task], most - behind[task])
    run.said.append((f"cut end 0 {least - 1}", "no solution"))
    run.said += [(f"show {name}", f"{name} {{}}\nno solution") for name in ("t0", "end")]


def said():
    """Each line of the run, and its answer."""
    run = Run()
    run.said += SUMS + REFUSED
    run.names += ["adult", "child", "pair", "family", "to\\tmorrow"]
    run.point |= {"adult": 15, "child": 8, "pair": 23, "family": 31, "to\\tmorrow": 1}
    run.ok("cut to\tmorrow 1 1")
    for model in (colours, queens, letters, timetable):
        model(run)
    return run.said + ENDED
