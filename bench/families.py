"""The problems that are asked: families of clauses, made from seeds, so that each run has the same ones."""

import itertools
import random
from dataclasses import dataclass, field


@dataclass
class Problem:
    """Clauses over the variables from 1 on. The last `softs` of them are soft, and those in `asked` are asked for."""

    family: str
    name: str
    variables: int
    clauses: list
    softs: int = 0
    asked: list = field(default_factory=list)

    def hards(self):
        return self.clauses[: len(self.clauses) - self.softs]

    def soft(self, number):
        return self.clauses[len(self.clauses) - self.softs + number]

    def demanded(self):
        """The clauses that a model has to satisfy."""
        return self.hards() + [self.soft(number) for number in self.asked]


def dimacs(variables, clauses):
    lines = [f"p cnf {variables} {len(clauses)}"]
    lines += [" ".join(map(str, [*clause, 0])) for clause in clauses]
    return "\n".join(lines) + "\n"


def question(problem):
    """The text for our program: which clauses are soft stands in comments."""
    text = dimacs(problem.variables, problem.clauses)
    if problem.softs:
        text = f"c soft {problem.softs}\nc ask {' '.join(map(str, problem.asked))}\n" + text
    return text


def random_clauses(chance, variables, count, width=3):
    clauses = []
    for _ in range(count):
        places = chance.sample(range(1, variables + 1), width)
        clauses.append([place * chance.choice((1, -1)) for place in places])
    return clauses


def random_problems():
    """Random clauses of three literals, about as many as leave half of the problems without a model."""
    for variables in (40, 60, 80, 100, 120, 160, 200):
        for seed in range(6):
            chance = random.Random(f"random {variables} {seed}")
            clauses = random_clauses(chance, variables, round(4.26 * variables))
            yield Problem(f"random {variables}", f"seed {seed}", variables, clauses)


def random_soft_problems():
    """The same with 64 soft clauses, of which all are asked for."""
    for variables in (60, 80, 100):
        for seed in range(6):
            chance = random.Random(f"random soft {variables} {seed}")
            clauses = random_clauses(chance, variables, round(4.4 * variables))
            yield Problem(f"random soft {variables}", f"seed {seed}", variables, clauses, 64, list(range(64)))


def chains():
    """Each variable implies the next, the first is true, and the last is free, true or false."""
    variables = 256
    chain = [[-place, place + 1] for place in range(1, variables)]
    shuffled = random.Random("chain").sample(chain, len(chain))
    for order, links in (("forward", chain), ("backward", chain[::-1]), ("shuffled", shuffled)):
        for end, last in (("free", []), ("true", [[variables]]), ("false", [[-variables]])):
            yield Problem("chain", f"{order}, end {end}", variables, [[1], *links, *last])
    # Here nothing but the chain is hard, and soft clauses want both ends, or the first alone.
    wanted = [[place] for place in range(1, 33)] + [[-place] for place in range(225, 257)]
    yield Problem("chain", "soft ends", variables, chain + wanted, 64, list(range(64)))
    yield Problem("chain", "soft starts", variables, chain + wanted, 64, list(range(32)))


def pigeonholes(pigeons, holes):
    def at(pigeon, hole):
        return pigeon * holes + hole + 1

    clauses = [[at(pigeon, hole) for hole in range(holes)] for pigeon in range(pigeons)]
    for hole in range(holes):
        for one, other in itertools.combinations(range(pigeons), 2):
            clauses.append([-at(one, hole), -at(other, hole)])
    return Problem("pigeonholes", f"{pigeons} into {holes}", pigeons * holes, clauses)


def pigeonhole_problems():
    for holes in range(5, 9):
        yield pigeonholes(holes + 1, holes)
    for holes in (5, 8, 12, 15):
        yield pigeonholes(holes, holes)


def even(places, odd=False):
    """The clauses that an even number of the variables is true, or an odd one."""
    signs = itertools.product((1, -1), repeat=len(places))
    return [
        [place * sign for place, sign in zip(places, chosen)] for chosen in signs if (chosen.count(-1) % 2 == 1) != odd
    ]


def parity_problems():
    """Two chains of sums over the same variables, one of which says that they are even, the other that they are odd."""
    for count in (8, 12, 16):
        helpers = itertools.count(count + 1)
        clauses = []
        for odd in (False, True):
            sum_so_far = 1
            for place in range(2, count):
                longer = next(helpers)
                clauses += even([sum_so_far, place, longer])
                sum_so_far = longer
            clauses += even([sum_so_far, count], odd)
        yield Problem("parity", f"{count} summands", next(helpers) - 1, clauses)


def equipment(chance, groups, options, needs, exclusions):
    """Exactly one option of each group. An option can need one of two others, and can exclude one of another group."""
    variables = groups * options
    clauses = []
    for group in range(groups):
        members = range(group * options + 1, (group + 1) * options + 1)
        clauses.append(list(members))
        clauses += [[-one, -other] for one, other in itertools.combinations(members, 2)]

    def elsewhere(option, count):
        group = (option - 1) // options
        others = [other for other in range(1, variables + 1) if (other - 1) // options != group]
        return chance.sample(others, count)

    for _ in range(round(needs * variables)):
        option = chance.randint(1, variables)
        clauses.append([-option, *elsewhere(option, 2)])
    for _ in range(round(exclusions * variables)):
        option = chance.randint(1, variables)
        clauses.append([-option, -elsewhere(option, 1)[0]])
    return variables, clauses


SIZES = ((20, 8), (24, 6), (32, 8), (40, 6), (40, 4))
# How many needs and how many exclusions there are for each option.
TIGHT = {"loose": (0.5, 1), "needs": (1.5, 2), "exclusions": (0.5, 8), "tight": (1, 6)}


def equipment_problems():
    """Groups of options, at several tightnesses."""
    for groups, options in SIZES:
        for name, (needs, exclusions) in TIGHT.items():
            for seed in range(4):
                chance = random.Random(f"equipment {groups} {options} {name} {seed}")
                variables, clauses = equipment(chance, groups, options, needs, exclusions)
                yield Problem(f"equipment {groups}x{options}", f"{name}, seed {seed}", variables, clauses)


def equipment_soft_problems():
    """Groups of options, and 64 wishes to do without an option, of which some are asked for."""
    for groups, options in SIZES:
        for count in (8, 16, 32):
            for seed in range(4):
                chance = random.Random(f"equipment soft {groups} {options} {count} {seed}")
                variables, clauses = equipment(chance, groups, options, 1, 3)
                wishes = [[-option] for option in chance.sample(range(1, variables + 1), 64)]
                asked = sorted(chance.sample(range(64), count))
                name = f"{count} asked, seed {seed}"
                yield Problem(f"equipment soft {groups}x{options}", name, variables, clauses + wishes, 64, asked)


def all_problems():
    yield from random_problems()
    yield from random_soft_problems()
    yield from chains()
    yield from pigeonhole_problems()
    yield from parity_problems()
    yield from equipment_problems()
    yield from equipment_soft_problems()
