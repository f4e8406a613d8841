#!/usr/bin/env python3
"""Plays a session text by going through all assignments, and checks what another player printed for it.

    player.py < TEXT                  prints what the rules determine, and * where several answers are right
    player.py --first < TEXT          the same, but keeps the first of several best plans, as a program would
    player.py --check OUTPUT < TEXT   says what is wrong with the output of another player, and ends with 1 then

It goes through the assignments of all n variables where n is at most 16, else of those that the text names. If
these are more than 16, it cannot play rounds: a text that calls for some ends it with 3.

It knows a job by what may be: the least and the greatest floor, and all plans that may be kept. An r line of at
least ENOUGH rounds is taken to reach the end, since small jobs do. After fewer, the floor may be anything up to the
least cost, and the kept plan any that is cheaper than the one before. Each q line that is checked tells more.
"""

import re
import sys

TEXT_LIMIT = 65536
VARIABLE_LIMIT = 256
LITERAL_LIMIT = 64
SOFT_PLACES = 64
CLAUSE_PLACES = 4096
LITERAL_PLACES = 16384
COUNTED_THROUGH = 16
ENOUGH = 1000
# With fewer soft clauses no 513 sets of them can be such that none contains another.
CROWDING_SOFTS = 12

# How many numbers a weight of each kind has, and what none of them may pass.
KINDS = {b"p": (1, 2**64 - 1), b"l": (3, 2**32 - 1)}
# How many fields a line has at least and at most, by its letter.
FIELDS = {b"j": (3, 3), b"h": (1, None), b"s": (2, None), b"r": (2, 2), b"q": (1, 1)}
LAYERS = {1: "t", 2: "t", 3: "t", 4: "t", 5: "f", 8: "f", 9: "f", 10: "c", 11: "f", 12: "c", 13: "f", 18: "c"}


class Refused(Exception):
    """A line is refused: with which number, and which field is to blame."""

    def __init__(self, number, field=0):
        super().__init__(number, field)
        self.number, self.field = number, field


class Uncounted(Exception):
    """There are too many variables to go through the assignments."""


def fault(line, refusal):
    return f"x\t{line}\t{refusal.field}\t{LAYERS[refusal.number]}\t{refusal.number}".encode()


# What is written


def lines_of(text):
    lines = text.split(b"\n")
    return lines if lines[-1] else lines[:-1]


def number(field, most_digits, most):
    """The number that a field is, None where it is not written as it should or too large."""
    if not re.fullmatch(rb"0|[1-9][0-9]*", field) or len(field) > most_digits or int(field) > most:
        return None
    return int(field)


def literal(field):
    if field.startswith(b"-"):
        return -(number(field[1:], 5, 99999) or 0) or None
    return number(field, 5, 99999)


def weight(field, kind):
    """A weight as a tuple of its numbers."""
    size, most = KINDS[kind]
    numbers = tuple(number(part, 20, most) for part in field.split(b","))
    return None if None in numbers or len(numbers) != size else numbers


def well_formed(values):
    """The values of the fields after the letter, all of which have to be there."""
    for place, value in enumerate(values, 2):
        if value is None:
            raise Refused(4, place)
    return values


def read(line, is_first, kind):
    """The letter of a line and the values of its other fields."""
    letter, *fields = line.split(b"\t")
    if letter not in FIELDS or (letter == b"j") != is_first:
        raise Refused(2)
    least, most = FIELDS[letter]
    if 1 + len(fields) < least or (most is not None and 1 + len(fields) > most):
        raise Refused(3)
    if letter == b"j":
        return letter, well_formed([number(fields[0], 5, 99999), fields[1] if fields[1] in KINDS else None])
    if letter == b"h":
        return letter, well_formed([literal(field) for field in fields])
    if letter == b"s":
        return letter, well_formed([weight(fields[0], kind), *map(literal, fields[1:])])
    if letter == b"r":
        return letter, well_formed([number(fields[0], 5, 65535)])
    return letter, []


def named_variables(text, n):
    """The variables up to n that some field of an h or s line may name."""
    found = set()
    for line in lines_of(text):
        letter, *fields = line.split(b"\t")
        if letter in (b"h", b"s"):
            found.update(abs(literal(field) or 0) for field in fields[letter == b"s" :])
    return sorted(variable for variable in found if 1 <= variable <= n)


# What is known of a job


class Job:
    """A plan is a number whose binary digits are the values of `variables`, the first lowest; None is no plan."""

    def __init__(self, n, kind, named):
        self.n, self.kind = n, kind
        self.variables = list(range(1, n + 1)) if n <= COUNTED_THROUGH else named
        self.zero = (0,) * KINDS[kind][0]
        self.clauses = self.literals = self.softs = 0
        self.total = self.zero
        # The cost of each allowed plan.
        self.costs = None
        if len(self.variables) <= COUNTED_THROUGH:
            self.costs = dict.fromkeys(range(1 << len(self.variables)), self.zero)
        self.low = self.high = self.zero
        self.may_keep = {None}
        self.void = False

    # Clauses

    def refuse(self, clause, first_field, weight=None):
        """Raises the earliest refusal of a clause, whose first literal stands in that field of its line."""
        if len(clause) > LITERAL_LIMIT:
            raise Refused(8)
        for place, one in enumerate(clause, first_field):
            if one == 0 or abs(one) > self.n:
                raise Refused(9, place)
        if weight is not None:
            if weight == self.zero:
                raise Refused(10, 2)
            if self.softs == SOFT_PLACES:
                raise Refused(11)
            if max(add(self.total, weight)) > KINDS[self.kind][1]:
                raise Refused(12, 2)
        if self.clauses == CLAUSE_PLACES or self.literals + len(clause) > LITERAL_PLACES:
            raise Refused(13)

    def enter(self, clause):
        """Puts a clause in its place, and gives back the allowed plans that break it."""
        self.clauses += 1
        self.literals += len(clause)
        if self.costs is None:
            return []
        bits = {variable: 1 << place for place, variable in enumerate(self.variables)}
        some_of = sum({bits[one] for one in clause if one > 0})
        not_all_of = sum({bits[-one] for one in clause if one < 0})
        return [plan for plan in self.costs if not plan & some_of and plan & not_all_of == not_all_of]

    def hard(self, clause):
        self.refuse(clause, 2)
        for plan in self.enter(clause):
            del self.costs[plan]
        if self.costs is not None:
            self.may_keep = {plan if plan in self.costs else None for plan in self.may_keep}

    def soft(self, weight, clause):
        self.refuse(clause, 3, weight)
        self.softs += 1
        self.total = add(self.total, weight)
        for plan in self.enter(clause):
            self.costs[plan] = add(self.costs[plan], weight)

    # Rounds

    def play(self, count):
        """Plays rounds, which come to the end if they are many."""
        if count == 0 or self.void:
            return
        if count < ENOUGH and count <= 2 ** (self.softs + 1):
            self.play_few()
        elif not self.find_void():
            best = self.best_plans()
            self.low = self.high = self.least()
            self.may_keep = {new for old in self.may_keep for new in ({old} if old in best else best)}

    def play_few(self):
        """Plays at least one round, and maybe none after it."""
        if not self.void and not self.find_void():
            self.high = self.least()
            self.may_keep = {new for old in self.may_keep for new in self.as_cheap_as(old)}

    def find_void(self):
        if self.costs is None:
            raise Uncounted
        self.void = not self.costs
        return self.void

    def least(self):
        return min(self.costs.values())

    def best_plans(self):
        least = self.least()
        return {plan for plan, cost in self.costs.items() if cost == least}

    def as_cheap_as(self, old):
        """The plan itself and all cheaper ones, or all allowed ones if none was kept."""
        if old is None:
            return set(self.costs)
        return {old} | {plan for plan, cost in self.costs.items() if cost < self.costs[old]}

    # What is told

    def digits(self, plan, other):
        """The values of all variables; those that no clause names are written as the other sign."""
        values = [other] * self.n
        for place, variable in enumerate(self.variables):
            values[variable - 1] = str(plan >> place & 1)
        return "".join(values).encode()

    def plan(self, digits):
        """The plan that is written so, or else -1."""
        if len(digits) != self.n or digits.strip(b"01"):
            return -1
        return sum(1 << place for place, variable in enumerate(self.variables) if digits[variable - 1] == ord("1"))

    def state(self, floor, plan, other="0"):
        """The fields of a q line."""
        if plan is None:
            return [b"q", b"void" if self.void else b"unasked", shown(floor), b"-", b"-"]
        cost = self.costs[plan]
        return [b"q", b"best" if floor == cost else b"open", shown(floor), shown(cost), self.digits(plan, other)]

    def settle(self):
        """Keeps the first of the best plans, and has the floor at its cost, if a round was played."""
        if self.costs and None not in self.may_keep:
            kept = min(self.may_keep, key=lambda plan: (self.costs[plan], plan))
            self.may_keep = {kept}
            if self.low < self.high:
                self.low = self.high = self.costs[kept]


def add(one, other):
    return tuple(first + second for first, second in zip(one, other))


def shown(weight):
    return ",".join(map(str, weight)).encode()


# A text against a job


def events(text):
    """What happens, line by line: the job, the number of the line, and a fault, a count of rounds, or None for q.

    Rounds are left to the receiver, which has played them when it asks for the next event.
    """
    if len(text) > TEXT_LIMIT:
        yield None, 0, fault(0, Refused(1))
        return
    job = None
    for place, line in enumerate(lines_of(text), 1):
        try:
            letter, values = read(line, place == 1, job and job.kind)
            if letter == b"j":
                job = open_job(text, *values)
            elif letter == b"h":
                job.hard(values)
            elif letter == b"s":
                job.soft(values[0], values[1:])
            elif letter == b"r":
                yield job, place, values[0]
            else:
                yield job, place, None
        except Refused as refusal:
            yield job, place, fault(place, refusal)
            if place == 1:
                return


def open_job(text, n, kind):
    if n > VARIABLE_LIMIT:
        raise Refused(5, 2)
    return Job(n, kind, named_variables(text, n))


def determined(job):
    """The q line as far as the rules determine it, with * for the rest."""
    floors = {job.low, job.high}
    rows = [job.state(floor, plan, "*") for floor in floors for plan in job.may_keep]
    columns = [set(column) for column in zip(*rows)]
    return b"\t".join(column.pop() if len(column) == 1 else b"*" for column in columns)


def played(text, first):
    """The lines that are printed for a text."""
    for job, _, event in events(text):
        if isinstance(event, bytes):
            yield event
        elif isinstance(event, int):
            job.play(event)
            if first:
                job.settle()
        elif first:
            yield b"\t".join(job.state(job.low, *job.may_keep))
        else:
            yield determined(job)


class Wrong(Exception):
    """What is wrong with an output."""


class Seen:
    """The output that is checked, line by line, and how often each refusal and each status came."""

    def __init__(self, output):
        if output and not output.endswith(b"\n"):
            raise Wrong("the last line of the output is not ended")
        self.lines = lines_of(output)
        self.next = 0
        self.counts = {}

    def peek(self):
        return self.lines[self.next] if self.next < len(self.lines) else None

    def take(self, what):
        """Counts what the next line says, and goes on to the one after it."""
        self.counts[what] = self.counts.get(what, 0) + 1
        self.next += 1


def check(text, output):
    """How often each refusal and each status came in an output. Raises `Wrong` if it is none for this text."""
    seen = Seen(output)
    for job, line, event in events(text):
        if isinstance(event, bytes):
            if seen.peek() != event:
                raise Wrong(f"line {line} should print {event!r}, and the output has {seen.peek()!r}")
            seen.take(int(event.split(b"\t")[-1]))
        elif isinstance(event, int):
            check_rounds(job, line, event, seen)
        elif seen.peek() is None:
            raise Wrong(f"line {line} should print the state, and the output is at its end")
        else:
            check_state(job, line, seen.peek().split(b"\t"))
            seen.take(seen.peek().split(b"\t")[1].decode())
    if seen.peek() is not None:
        raise Wrong(f"the text is at its end, and the output still has {seen.peek()!r}")
    return seen.counts


def check_rounds(job, line, count, seen):
    crowded = count and not job.void and job.softs >= CROWDING_SOFTS
    if crowded and seen.peek() == fault(line, Refused(18)):
        seen.take(18)
        job.play_few()
    else:
        job.play(count)


def check_state(job, line, fields):
    """Raises what is wrong with a q line, and keeps what it tells."""

    def must(right, what):
        if not right:
            raise Wrong(f"line {line} printed {fields}: {what}")

    must(len(fields) == 5 and fields[0] == b"q", "this is no state")
    floor = weight(fields[2], job.kind)
    must(floor is not None, "the floor is no weight")
    must(job.low <= floor <= job.high, f"the floor should be {between(job.low, job.high)}")
    plan = None if fields[4] == b"-" else job.plan(fields[4])
    must(plan != -1, f"the plan should have {job.n} digits, all 0 or 1")
    must(plan is not None or None in job.may_keep, f"a plan should be kept, one of {examples(job)}")
    must(plan is None or plan in job.costs, "the plan breaks a hard clause")
    must(plan in job.may_keep, f"this plan cannot be kept here, but {examples(job)}")
    right = job.state(floor, plan)[:4]
    must(fields[:4] == right, f"with this floor and plan it should begin with {right}")
    job.low = job.high = floor
    job.may_keep = {plan}


def between(low, high):
    return shown(low).decode() if low == high else f"{shown(low).decode()} to {shown(high).decode()}"


def examples(job):
    """Some of the plans that may be kept, with their costs."""
    plans = list(job.may_keep)[:4]
    words = ["none" if plan is None else example(job, plan) for plan in plans]
    return "[" + ", ".join(words) + ("]" if len(plans) == len(job.may_keep) else ", ...]")


def example(job, plan):
    return f"{job.digits(plan, '*').decode()} at {shown(job.costs[plan]).decode()}"


def main():
    arguments = sys.argv[1:]
    text = sys.stdin.buffer.read()
    try:
        if arguments[:1] == ["--check"] and len(arguments) == 2:
            with open(arguments[1], "rb") as file:
                print(check(text, file.read()))
        elif arguments in ([], ["--first"]):
            for line in played(text, bool(arguments)):
                sys.stdout.buffer.write(line + b"\n")
        else:
            sys.exit(__doc__)
    except Uncounted:
        sys.stdout.flush()
        sys.exit(3)
    except Wrong as wrong:
        sys.exit(f"WRONG: {wrong}")


if __name__ == "__main__":
    main()
