"""The sessions that are timed: families made from seeds, so that each run has the same ones."""

import itertools
import random
from dataclasses import dataclass

import cores
import families

# What a session text and its tables have room for.
BYTES, CLAUSES, LITERALS = 65536, 4096, 16384
SOFTS = 64


@dataclass
class Wishes:
    """Hard clauses over the variables from 1 on, and soft ones with their weights, as one number or as three levels."""

    family: str
    name: str
    variables: int
    hards: list
    softs: list
    weights: list

    def amounts(self):
        """The weights as one number each."""
        return [cores.amount(weight) for weight in self.weights]

    def is_allowed(self, plan):
        """Whether a plan, as the set of its true literals, satisfies each hard clause."""
        return all(plan.intersection(clause) for clause in self.hards)

    def cost(self, plan):
        """What a plan costs, as one number."""
        return sum(amount for amount, clause in zip(self.amounts(), self.softs) if not plan.intersection(clause))

    def wrong(self, answer):
        """What is wrong with the plan of an answer; None where nothing is, or where it has none."""
        if answer.plan is None:
            return None
        if {abs(literal) for literal in answer.plan} != set(range(1, self.variables + 1)):
            return "has not a value for each variable"
        if len(answer.plan) != self.variables or not self.is_allowed(answer.plan):
            return "is not allowed"
        if self.cost(answer.plan) != answer.cost:
            return f"costs {self.cost(answer.plan)} and not {answer.cost}"
        return None


def line(letter, *fields):
    return "\t".join([letter, *map(str, fields)]) + "\n"


def session(problem):
    """The text for our program: the problem, rounds to the end, and the question how far the job has come."""
    lines = [line("j", problem.variables, "p" if isinstance(problem.weights[0], int) else "l")]
    lines += [line("h", *clause) for clause in problem.hards]
    lines += [line("s", cores.written(weight), *clause) for weight, clause in zip(problem.weights, problem.softs)]
    return "".join([*lines, line("r", 65535), line("q")])


def weighted(problem):
    """The text for the others. To break a hard clause costs more there than to break all soft ones."""
    amounts = problem.amounts()
    top = sum(amounts) + 1
    lines = [f"p wcnf {problem.variables} {len(problem.hards) + len(problem.softs)} {top}"]
    for amount, clause in zip([top] * len(problem.hards) + amounts, problem.hards + problem.softs):
        lines.append(" ".join(map(str, [amount, *clause, 0])))
    return "\n".join(lines) + "\n"


def fill(problem, more):
    """Adds hard clauses of those that come, until the text or the tables have no room for the next one."""
    room = BYTES - 1 - len(session(problem))
    places = CLAUSES - len(problem.hards) - len(problem.softs)
    literals = LITERALS - sum(map(len, problem.hards + problem.softs))
    for clause in itertools.islice(more, places):
        room -= len(line("h", *clause))
        literals -= len(clause)
        if min(room, literals) < 0:
            break
        problem.hards.append(clause)


# Each shape draws the number of variables, hard clauses, and wishes, which are soft clauses; and then one more hard
# clause after another, of a sort that rules out little, to fill the text with.


def equipment(groups, options, tightness):
    """One option of each group, where each option of the first groups has its price."""

    def draw(chance):
        variables, hards = families.equipment(chance, groups, options, *families.TIGHT[tightness])
        priced = SOFTS // options * options
        return variables, hards, [[-option] for option in range(1, priced + 1)]

    def more(chance):
        """Four options that cannot be had together."""
        return [-option for option in chance.sample(range(1, groups * options + 1), 4)]

    return draw, more


def exclusions(pairs):
    """Options that are all wanted, but some two of them exclude one another."""

    def draw(chance):
        hards = [[-option for option in chance.sample(range(1, SOFTS + 1), 2)] for _ in range(pairs)]
        return 256, hards, [[option] for option in range(1, SOFTS + 1)]

    return draw, long_clause


def random_clauses(ratio):
    """Clauses of three literals, so many for each variable, and wishes for some variables or their opposites."""

    def draw(chance):
        hards = families.random_clauses(chance, 256, round(ratio * 256))
        return 256, hards, [[place * chance.choice((1, -1))] for place in chance.sample(range(1, 257), SOFTS)]

    return draw, long_clause


def long_clause(chance):
    return families.random_clauses(chance, 256, 1, 8)[0]


SHAPES = {
    "equipment 20x8 loose": equipment(20, 8, "loose"),
    "equipment 24x6 loose": equipment(24, 6, "loose"),
    "equipment 24x6 needs": equipment(24, 6, "needs"),
    "equipment 32x8 loose": equipment(32, 8, "loose"),
    "equipment 32x8 needs": equipment(32, 8, "needs"),
    "equipment 40x6 loose": equipment(40, 6, "loose"),
    "exclusions 64": exclusions(64),
    "exclusions 192": exclusions(192),
    "random 2.0": random_clauses(2),
    "random 2.5": random_clauses(2.5),
    "random 3.0": random_clauses(3),
}
SEEDS = 2


def all_problems():
    for shape, (draw, more) in SHAPES.items():
        for kind, weight in cores.WEIGHTS.items():
            for seed in range(SEEDS):
                chance = random.Random(f"{shape} {kind} {seed}")
                variables, hards, softs = draw(chance)
                weights = [weight(chance) for _ in softs]
                problem = Wishes(f"{shape}, {kind}", f"seed {seed}", variables, hards, softs, weights)
                fill(problem, (more(chance) for _ in itertools.count()))
                yield problem
