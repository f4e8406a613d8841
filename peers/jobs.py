"""The jobs that `compare` gives to the program: what a job is, and families of jobs that are drawn from a seed."""

import functools
import itertools
import math
import random
from dataclasses import dataclass

import cores
import families
import player
import wishes

# So many rounds come to the end, if no round is refused.
MANY = 65535
# The kinds of weights, by the letters that a text has for them.
KINDS = {"plain": "p", "levels": "l"}


def refusal(line, number, field=0):
    """What is printed where a line is refused."""
    return player.fault(line, player.Refused(number, field))


@dataclass
class Problem(wishes.Wishes):
    """The clauses that a state is about. A weight is a tuple of one number or of three, and so is a total."""

    zero: tuple

    def __post_init__(self):
        self.totals = [sum(level) for level in zip(*self.weights)]
        self.divisor = functools.reduce(math.gcd, map(self.number, self.weights), 0) or 1

    def number(self, weight):
        """A weight as one number, exactly: each level has a base that its total does not reach."""
        number = 0
        for level, total in zip(weight, self.totals):
            number = number * (total + 1) + level
        return number

    def amounts(self):
        """The weights as one number each, over the greatest number that divides all."""
        return [self.number(weight) // self.divisor for weight in self.weights]

    def total(self, plan):
        """What a plan costs, as a weight."""
        broken = [weight for weight, clause in zip(self.weights, self.softs) if not plan.intersection(clause)]
        return tuple(map(sum, zip(self.zero, *broken)))


@dataclass
class Rounds:
    """An r line, by its number in the text, and whether a round of it may find all places of cores taken."""

    line: int
    may_fill: bool


@dataclass
class State:
    """A q line: the problem that it asks about, and whether so many rounds were called for before that this is the end."""

    problem: Problem
    ended: bool


class Job:
    """A text, made line by line, with what is printed for its lines: refusals, as bytes, and states."""

    # Whether 512 places are surely enough for the cores.
    roomy = False

    def __init__(self, family, name, kind, n):
        self.family, self.name, self.kind, self.n = family, name, kind, n
        self.lines, self.events = [], []
        self.hards, self.softs, self.weights = [], [], []
        self.problem, self.ended = None, False
        self.add("j", n, kind)

    def text(self):
        return "".join(self.lines).encode()

    def add(self, *fields):
        self.lines.append(wishes.line(*fields))

    def hard(self, clause):
        self.hards.append(clause)
        self.problem, self.ended = None, False
        self.add("h", *clause)

    def soft(self, weight, clause):
        self.softs.append(clause)
        self.weights.append(weight)
        self.problem, self.ended = None, False
        self.add("s", shown(weight), *clause)

    def refused(self, number, field, *fields):
        """A line that is refused, and so changes nothing."""
        self.add(*fields)
        self.events.append(refusal(len(self.lines), number, field))

    def rounds(self, count):
        self.add("r", count)
        self.events.append(Rounds(len(self.lines), len(self.softs) >= player.CROWDING_SOFTS and not self.roomy))
        self.ended = self.ended or count == MANY

    def state(self):
        self.add("q")
        if self.problem is None:
            lists = map(list, (self.hards, self.softs, self.weights))
            zero = (0,) * player.KINDS[self.kind.encode()][0]
            self.problem = Problem(self.family, self.name, self.n, *lists, zero)
        self.events.append(State(self.problem, self.ended))

    def ask(self):
        """Asks for the cheapest plan."""
        self.rounds(MANY)
        self.state()

    def prints_only(self, fault):
        """The text is refused as a whole, or its first line is."""
        self.events = [fault]


def shown(weight):
    return player.shown(weight).decode()


# How jobs are drawn


def plain_weights(chance):
    """A way to draw plain weights, none so large that clasp could not hold some of them together."""
    return chance.choice([cores.equal, cores.some, cores.spread, lambda chance: chance.randint(1, 2**24)])


def level_weights(chance):
    """A way to draw level weights, small enough that clasp can hold them as one number."""

    def any_level(chance):
        return chance.choice([(1, 0, 0), (0, 1, 0), (0, 0, 1), (0, 2, 1), (2, 0, 3), (0, 0, 99)])

    def large(chance):
        return chance.randint(0, 3), chance.randint(0, 99), chance.randint(1, 99)

    return chance.choice([cores.levels, any_level, large])


def enter(chance, job, hards, softs):
    """Enters hard clauses, and soft ones with weights that are drawn, in an order that is drawn."""
    draw = (plain_weights if job.kind == "p" else level_weights)(chance)
    lines = [(False, clause) for clause in hards] + [(True, clause) for clause in softs]
    for is_soft, clause in chance.sample(lines, len(lines)):
        if is_soft:
            weight = draw(chance)
            job.soft(weight if isinstance(weight, tuple) else (weight,), clause)
        else:
            job.hard(clause)


def loose(chance, n, size):
    """A clause in which a literal may stand twice, and with its opposite."""
    return [chance.randint(1, n) * chance.choice((1, -1)) for _ in range(size)] if n else []


def strict(chance, variables, size):
    """A clause that names each variable once."""
    return [variable * chance.choice((1, -1)) for variable in chance.sample(variables, size)]


def small(chance, opened):
    job = opened(chance.randint(0, 10))
    hards = [loose(chance, job.n, chance.choice((1, 2, 2, 2, 3, 3, 4))) for _ in range(chance.randint(0, 2 * job.n))]
    softs = [loose(chance, job.n, chance.choice((0, 1, 1, 1, 2, 3))) for _ in range(chance.randint(0, 2 * job.n + 2))]
    if chance.random() < 0.05:
        hards.append([])
    enter(chance, job, hards, softs)
    job.ask()
    return job


def medium(chance, opened):
    job = opened(chance.randint(20, 60))
    hards = families.random_clauses(chance, job.n, round(chance.uniform(1, 4) * job.n))
    softs = [loose(chance, job.n, chance.choice((1, 1, 1, 2))) for _ in range(chance.randint(10, 64))]
    enter(chance, job, hards, softs)
    job.ask()
    return job


def equipment(chance, opened):
    """One option of each group, with needs, exclusions, prices and wishes."""
    tightness = families.TIGHT[chance.choice(("loose", "needs"))]
    n, hards = families.equipment(chance, chance.randint(4, 10), chance.randint(4, 6), *tightness)
    priced = chance.sample(range(1, n + 1), chance.randint(10, min(n, 40)))
    wished = [chance.sample(range(1, n + 1), 2) for _ in range(chance.randint(0, 10))]
    job = opened(n)
    enter(chance, job, hards, [[-option] for option in priced] + wished)
    job.ask()
    return job


def contradiction(chance, variables):
    """Hard clauses over some of the variables, which cannot all be satisfied."""
    count = chance.randint(1, 4)
    some = chance.sample(variables, count)
    every_sign = [[v * sign for v, sign in zip(some, signs)] for signs in itertools.product((1, -1), repeat=count)]
    ring = strict(chance, variables, chance.randint(2, len(variables)))
    ring += [-literal for literal in ring]
    implied = [[-one, other] for one, other in zip(ring, ring[1:] + ring[:1])]
    holes = chance.choice((2, 3))
    crowded = families.pigeonholes(holes + 1, holes).clauses
    places = [0, *chance.sample(variables, holes * (holes + 1))]
    moved = [[places[abs(one)] * (1 if one > 0 else -1) for one in clause] for clause in crowded]
    return chance.choice([every_sign, implied, moved])


def no_solution(chance, opened):
    job = opened(chance.randint(12, 40))
    hards = families.random_clauses(chance, job.n, round(chance.uniform(0, 2) * job.n))
    softs = [loose(chance, job.n, chance.choice((1, 1, 2))) for _ in range(chance.randint(0, 20))]
    enter(chance, job, hards + contradiction(chance, list(range(1, job.n + 1))), softs)
    job.ask()
    return job


def repeats(chance, opened):
    """Clauses that come several times, with their literals repeated and in another order, and some opposites among them."""
    job = opened(chance.randint(1, 16))

    def repeated(clause):
        more = [chance.choice(clause) * chance.choice((1, 1, 1, 1, 1, -1)) for _ in range(chance.randint(0, 4))]
        return chance.sample(clause + more, len(clause + more))

    def drawn(count):
        clauses = [loose(chance, job.n, chance.choice((1, 2, 2, 3))) for _ in range(count)]
        return [again for clause in clauses for again in [clause] * chance.randint(1, 3) + [repeated(clause)]]

    enter(chance, job, drawn(chance.randint(0, job.n)), drawn(chance.randint(1, 12)))
    job.ask()
    return job


def stages(chance, opened):
    """Clauses that come late: between them, what is known is asked for at once, after a few rounds, and after many."""
    job = opened(chance.choice((3, 5, 8, 10, 16, 24, 32)))
    variables = list(range(1, job.n + 1))

    def demands(count):
        """Mostly, that one of three options is there."""
        clauses = [strict(chance, variables, 3) for _ in range(count)]
        return [[abs(one) if chance.random() < 0.7 else one for one in clause] for clause in clauses]

    def prices(count):
        """That one option, or one of two, is not there."""
        sizes = [chance.choice((1, 1, 1, 2)) for _ in range(count)]
        return [[-option for option in chance.sample(variables, size)] for size in sizes]

    enter(chance, job, demands(chance.randint(0, job.n)), prices(chance.randint(0, job.n)))
    job.ask()
    for _ in range(chance.randint(1, 5)):
        late = [strict(chance, variables, chance.choice((1, 2)))] if chance.random() < 0.5 else []
        if chance.random() < 0.05:
            late = [[variables[0]], [-variables[0]]]
        enter(chance, job, demands(chance.randint(0, 2)) + late, prices(chance.randint(0, 2)))
        if chance.random() < 0.5:
            job.state()
        if chance.random() < 0.5:
            job.rounds(chance.randint(0, 4))
            job.state()
        job.ask()
    return job


MAKERS = {
    "small": small,
    "medium": medium,
    "equipment": equipment,
    "no solution": no_solution,
    "repeats": repeats,
    "stages": stages,
}


def drawn_job(seed, place):
    """Job `place` of a seed: the families take turns."""
    name, make = list(MAKERS.items())[place // 2 % len(MAKERS)]
    weights, kind = list(KINDS.items())[place % 2]
    return make(random.Random(f"{seed} {place}"), functools.partial(Job, f"{name}, {weights}", f"{seed}-{place}", kind))
