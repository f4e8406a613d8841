"""The cores of which least covers are looked for: families made from seeds, so that each run has the same ones."""

import random
from dataclasses import dataclass

NUMBERS = 64
# More than any level comes to in total, so that numbers put together with it are in the order of the level weights.
BASE = 1000


@dataclass
class Covering:
    """Weights, as one number or as three levels, and cores, as sets of the numbers from 0 on."""

    family: str
    name: str
    weights: list
    cores: list

    def amounts(self):
        """The weights as one number each."""
        return [amount(weight) for weight in self.weights]

    def cost(self, members):
        return sum(amount(self.weights[number]) for number in members)

    def is_cover(self, members):
        return all(core & members for core in self.cores)


def amount(weight):
    """A weight as one number, in the order of the weights and of their totals."""
    if isinstance(weight, int):
        return weight
    first, second, third = weight
    return (first * BASE + second) * BASE + third


def ours(problem):
    """The text for our program."""
    kind = "plain" if isinstance(problem.weights[0], int) else "levels"
    lines = [kind, " ".join(map(written, problem.weights))]
    lines += [" ".join(map(str, sorted(core))) for core in problem.cores]
    return "\n".join(lines) + "\n"


def written(weight):
    return str(weight) if isinstance(weight, int) else ",".join(map(str, weight))


def pseudo_boolean(problem):
    """The text for clasp: the sum that is to be least, and a sum of at least 1 for each core."""
    lines = [f"* #variable= {len(problem.weights)} #constraint= {len(problem.cores)}"]
    terms = [f"+{weight} x{place}" for place, weight in enumerate(problem.amounts(), 1)]
    lines.append(f"min: {' '.join(terms)} ;")
    for core in problem.cores:
        lines.append(" ".join(f"+1 x{number + 1}" for number in sorted(core)) + " >= 1 ;")
    return "\n".join(lines) + "\n"


def weighted(problem):
    """The text for toulbar2: each number is to be left out, at its weight, and each core is a hard clause."""
    amounts = problem.amounts()
    top = sum(amounts) + 1
    lines = [f"p wcnf {len(amounts)} {len(amounts) + len(problem.cores)} {top}"]
    lines += [f"{weight} -{place} 0" for place, weight in enumerate(amounts, 1)]
    for core in problem.cores:
        lines.append(" ".join([str(top), *(str(number + 1) for number in sorted(core)), "0"]))
    return "\n".join(lines) + "\n"


def random_cores(chance, count, least, most):
    """So many cores of at least and at most so many members, none of which contains another."""
    cores = []
    while len(cores) < count:
        core = frozenset(chance.sample(range(NUMBERS), chance.randint(least, most)))
        if not any(kept <= core for kept in cores):
            cores = [kept for kept in cores if not core <= kept] + [core]
    return cores


def ring_cores(count):
    """So many rings of five numbers, of which each two neighbours make a core."""
    return [frozenset((5 * ring + place, 5 * ring + (place + 1) % 5)) for ring in range(count) for place in range(5)]


def equal(chance):
    return 1


def some(chance):
    return chance.randint(1, 100)


def spread(chance):
    return chance.randint(1, 9) * 10 ** chance.randint(0, 8)


def levels(chance):
    return chance.randint(0, 1), chance.randint(0, 9), chance.randint(1, 9)


SHAPES = [(count, 2, 8) for count in (20, 60, 128, 256, 512)]
SHAPES += [(count, size, size) for size in (3, 4, 6) for count in (128, 512)]
WEIGHTS = {"equal": equal, "random": some, "spread": spread, "levels": levels}
SEEDS = 3
RINGS = range(4, 11)


def all_problems():
    for count, least, most in SHAPES:
        sizes = f"{least}" if least == most else f"{least}-{most}"
        for name, draw in WEIGHTS.items():
            for seed in range(SEEDS):
                chance = random.Random(f"{count} {sizes} {name} {seed}")
                weights = [draw(chance) for _ in range(NUMBERS)]
                cores = random_cores(chance, count, least, most)
                yield Covering(f"{count} of {sizes} {name}", f"seed {seed}", weights, cores)
    for count in RINGS:
        yield Covering("rings", f"{count} rings", [1] * (5 * count), ring_cores(count))
