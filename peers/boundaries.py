"""The jobs at the limits. Most come twice: at the limit, and with lines more, each of which is refused.

What a text has room for: a line of one literal takes 4 bytes, so 4,096 clauses take 16,384 bytes at the least. 16,384
literals of one digit take two bytes each, in 256 lines of 64 literals 33,280 bytes. Both at once, as 4,096 lines of four
such literals, take 40,960 bytes. So each of these limits can be reached within the 65,536 bytes of a text, and passed.

Which weights the other solvers can hold is told in `compare`. The jobs that neither can hold are small enough for the
player, which goes through all plans and adds without a limit.
"""

import functools
import itertools
import random

import player
import wishes
from jobs import MANY, Job, refusal, shown, strict

FAMILY = "boundary"
PLAIN_TOP = player.KINDS[b"p"][1]
LEVEL_TOP = player.KINDS[b"l"][1]


def made(kind, n, hards, softs):
    """A job for each name, with hard clauses, and with soft ones, of which each is a weight and a clause."""

    def job_of(name):
        job = Job(FAMILY, name, kind, n)
        for clause in hards:
            job.hard(clause)
        for weight, clause in softs:
            job.soft(weight, clause)
        return job

    return job_of


def asked(job):
    job.ask()
    return job


def twice(name, over, job_of, *refused):
    """The job, and the same with lines more that are refused, of which each is the number, the field, and the fields."""
    yield asked(job_of(name))
    job = job_of(f"{name}, {over}")
    for number, field, *fields in refused:
        job.refused(number, field, *fields)
    yield asked(job)


def priced(kind, places):
    """A wish to go without each of these variables, with weights from 1 to 9, of one level or another."""
    amounts = [(place % 9 + 1, place % 3) for place in places]
    return [(single(kind, *amount), [-place]) for amount, place in zip(amounts, places)]


def single(kind, amount, level):
    """A plain weight, or one of a single level."""
    return (amount,) if kind == "p" else tuple(amount if place == level else 0 for place in range(3))


# Variables, clauses and texts


def numbers_of_variables(chance):
    """n of 0, 1 and 256, and above."""
    none = made("l", 0, [], [((0, 2, 1), []), ((1, 0, 0), [])])
    one = made("p", 1, [], [((3,), [1]), ((2,), [-1])])
    chain = [[-place, place + 1] for place in range(1, 256)]
    most = made("p", 256, chain, [((5,), [1]), ((4,), [-256]), ((1,), [128, -129])])
    yield asked(made("p", 0, [], [])("n = 0, no clause"))
    yield from twice("n = 0", "a literal", none, (9, 2, "h", 1), (9, 3, "s", "0,0,1", -1))
    void = asked(none("n = 0, an empty hard clause at last"))
    void.hard([])
    yield asked(void)
    yield from twice("n = 1", "a variable more", one, (9, 2, "h", 2), (9, 4, "s", 1, 1, -2))
    yield from twice("n = 256", "a variable more", most, (9, 2, "h", 257), (9, 3, "s", 1, -257))
    for n, number in ((257, 5), (99999, 5), (100000, 4)):
        above = asked(made("p", n, [[1]], [])(f"n = {n:,}"))
        above.prints_only(refusal(1, number, 2))
        yield above


def lengths_of_clauses(chance):
    """Clauses of no literal, of 64 literals, and of 65."""
    none = made("p", 2, [[1, 2]], [((7,), []), ((2,), [-1]), ((3,), [-2])])
    yield asked(none("a soft clause of 0 literals"))
    void = none("a hard clause of 0 literals")
    void.hard([])
    yield asked(void)
    hards = [list(range(1, 65)), [-place for place in range(40, 64)]]
    softs = [((0, 100 - place, place), [-place]) for place in range(1, 64)] + [((0, 0, 50), [65, *range(-63, 0)])]
    long = list(range(1, 66))
    refused = [(8, 0, "h", *long), (8, 0, "s", "0,0,1", *long), (8, 0, "h", *[1] * 65), (8, 0, "s", "0,0,0", *[66] * 65)]
    yield from twice("64 literals", "65 literals", made("l", 65, hards, softs), *refused)


def literals(chance):
    """Literals of n and of n + 1, and such as are written with too many digits or too few."""
    for n in (2, 9, 99):
        near = made("p", n, [[-n, 1], [n, -1]], [((4,), [n]), ((5,), [-n, -1])])
        refused = [(9, 2, "h", n + 1), (9, 3, "h", 1, -(n + 1)), (9, 4, "s", 1, n, -(n + 1), n + 1)]
        refused += [(9, 2, "h", 99999), (4, 2, "h", 100000), (9, 2, "h", 0), (4, 2, "h", "-0")]
        yield from twice(f"literals of n = {n}", "of n + 1", near, *refused)


def soft_places(chance):
    """64 soft clauses, and a 65th."""
    pairs = [[place, place + 1] for place in range(1, 64, 3)]
    for kind, weight in (("p", "1"), ("l", "0,0,1")):
        full = made(kind, 64, pairs, priced(kind, range(1, 65)))
        yield from twice(f"64 soft clauses, {kind}", "a 65th", full, (11, 0, "s", weight, 1), (11, 0, "s", weight))


def clause_places(chance):
    """4,096 clauses, 16,384 literals, both, and one more. Few variables are named, since the text has to be short."""
    digits = range(1, 10)

    def cover(count, width):
        """So many clauses that say that of some variables one is true."""
        return [chance.sample(digits, width) for _ in range(count)]

    few = made("p", 9, cover(4087, 3), priced("p", digits))
    yield from twice("4,096 clauses", "a 4,097th", few, (13, 0, "h"), (13, 0, "s", 1, 1))
    long = [chance.choices(digits, k=64) for _ in range(255)] + [chance.choices(digits, k=55)]
    full = made("l", 9, long, priced("l", digits))
    yield from twice("16,384 literals", "one more", full, (13, 0, "h", 1), (13, 0, "s", "1,0,0", 1))
    empty = [((9, 0, 0), [])]
    yield asked(made("l", 9, long, priced("l", digits) + empty)("16,384 literals and an empty clause"))
    # Nine soft clauses of one literal leave 4,087 clauses and 16,375 literals: 27 more than four for each.
    four = cover(4060, 4) + [[*clause, -clause[0]] for clause in cover(27, 4)]
    both = made("p", 9, four, priced("p", digits))
    yield from twice("4,096 clauses of 16,384 literals", "one more", both, (13, 0, "h"), (13, 0, "h", 1))


def text_sizes(chance):
    """65,536 bytes of text, with and without an end of the last line, and 65,537."""
    yield full_text(chance, "65,536 bytes, the last line ended", "\n")
    yield full_text(chance, "65,536 bytes, the last line open", "")
    beyond = full_text(chance, "65,537 bytes", "\n")
    beyond.lines.append("\n")
    beyond.prints_only(refusal(0, 1))
    yield beyond


def full_text(chance, name, end):
    """Options that are all wanted, some of which exclude each other, and clauses that fill the text to the last byte."""
    wanted = [((place % 7 + 1,), [place]) for place in range(1, 41)]
    pairs = [[-place for place in chance.sample(range(1, 41), 2)] for _ in range(30)]
    job = made("p", 256, pairs, wanted)(name)
    room = player.TEXT_LIMIT - len(job.text()) - len(wishes.line("r", MANY) + "q" + end)
    while room > 100:
        job.hard(strict(chance, range(1, 257), 8))
        room -= len(job.lines[-1])
    # A letter, an end, and literals that take 3 bytes each with their tabs, but for the first one, which takes 3 to 5.
    first = (10, 100, -100)[(room - 2) % 3]
    job.hard([first, *[10] * ((room - 2) // 3 - 1)])
    job.ask()
    job.lines[-1] = "q" + end
    assert len(job.text()) == player.TEXT_LIMIT
    return job


# Weights


def parts_of(chance, total, count, most):
    """So many numbers that come to a total, none of them zero or above another number."""
    while True:
        cuts = sorted(chance.randrange(total) for _ in range(count - 1))
        parts = [high - low for low, high in zip([0, *cuts], [*cuts, total])]
        if min(parts) > 0 and max(parts) <= most:
            return parts


def totals(name, kind, weights, over):
    """Weights that come to a total: first it is to be chosen which to pay, and then all of them have to be paid."""
    places = range(1, len(weights) + 1)
    pairs = [[place, place + 1] for place in places[:-1]]

    def job_of(name):
        job = asked(made(kind, len(weights), pairs, [(weight, [-place]) for weight, place in zip(weights, places)])(name))
        for place in places:
            job.hard([place])
        return job

    return twice(name, "and more", job_of, *((12, 2, "s", shown(weight), 1) for weight in over))


def plain_totals(chance):
    """Totals of 18,446,744,073,709,551,615, and of 4,294,967,296, which 32 bits would count as 0."""
    over = [(1,), (2**63,), (PLAIN_TOP,)]
    yield from totals("total 2^64 - 1, one weight", "p", [(PLAIN_TOP,)], over)
    # The product of 2^32 - 1 and 2^32 + 1: the other solvers get the parts of the first number.
    parts = parts_of(chance, 2**32 - 1, 8, 2**31 - 1)
    yield from totals("total 2^64 - 1, multiples", "p", [((2**32 + 1) * part,) for part in parts], over)
    parts = parts_of(chance, PLAIN_TOP, 7, PLAIN_TOP)
    yield from totals("total 2^64 - 1, parts", "p", [(part,) for part in parts], over)
    thirds = [1431655765, 1431655765, 1431655766]
    for name, dear in (("one weight", [2**32]), ("two weights", [2**31, 2**31]), ("three weights", thirds)):
        cheap = len(dear) + 1
        either = [[place, cheap] for place in range(1, cheap)]
        softs = [((5,), [-cheap])] + [((weight,), [-place]) for place, weight in enumerate(dear, 1)]
        job = asked(made("p", cheap, either, softs)(f"total 2^32, {name}"))
        job.hard([-cheap])
        yield asked(job)


def level_totals(chance):
    """Totals of 4,294,967,295 in a level."""
    top = LEVEL_TOP
    units = [(1, 0, 0), (0, 1, 0), (0, 0, 1)]
    for level in range(3):
        at = functools.partial(single, "l", level=level)
        name = f"level {level + 1} of 2^32 - 1"
        others = [unit for unit in units if unit != at(1)]
        over = [at(1), at(top)]
        yield from totals(f"{name}, one weight", "l", [at(top)], over)
        yield from totals(f"{name}, beside others", "l", [at(top), *others], over)
        yield from totals(f"{name}, parts", "l", [at(part) for part in parts_of(chance, top, 6, 2**31 - 1)], over)
    columns = [parts_of(chance, top, 6, top) for _ in range(3)]
    yield from totals("three levels of 2^32 - 1", "l", list(zip(*columns)), [*units, (top, top, top)])


def written_numbers(chance):
    """The least weights, weights of zero, and numbers that are too large to be written."""
    plain = made("p", 2, [[-2]], [((1,), [1]), ((2,), [-1, 2])])
    refused = [(10, 2, "s", 0, 1), (4, 2, "s", PLAIN_TOP + 1, 1), (4, 2, "s", "0,0,1", 1), (4, 2, "r", MANY + 1)]
    yield from twice("the least plain weight", "zero, and others", plain, *refused)
    levels = made("l", 2, [[-2]], [((0, 0, 1), [1]), ((1, 0, 0), [-1, 2])])
    over = LEVEL_TOP + 1
    refused = [(4, 2, "s", weight, 1) for weight in (f"{over},0,0", f"0,{over},0", f"0,0,{over}", "1")]
    yield from twice("the least level weight", "zero, and others", levels, (10, 2, "s", "0,0,0", 1), *refused)


def core_places(chance):
    """Of twelve options no five can be had together: 512 cores, which can all be kept, and more, which cannot.

    Which cores are looked for is left open, but with equal weights the program looks for more than 512 of the 792 today.
    """
    fives = list(itertools.combinations(range(-12, 0), 5))
    wanted = [((1,), [option]) for option in range(1, 13)]
    for count in (512, len(fives)):
        job = made("p", 12, map(list, chance.sample(fives, count)), wanted)(f"{count} cores")
        job.roomy = count <= 512
        yield asked(job)


MAKERS = (numbers_of_variables, lengths_of_clauses, literals, soft_places, clause_places, text_sizes)
MAKERS += (plain_totals, level_totals, written_numbers, core_places)


def all_jobs(seed):
    for make in MAKERS:
        yield from make(random.Random(f"{seed} {make.__name__}"))
