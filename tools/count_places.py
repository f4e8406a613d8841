#!/usr/bin/env python3
# History: this script belongs to work that is done, and is used no more.
"""Lists the places in src/ (for point 8: in proofs/) that docs/DESIGN-PASS.md counts. Run it at the top of a checkout:

    python3 tools/count_places.py          the number of places of each point
    python3 tools/count_places.py 3        the places of point 3, a line each

It goes by text, so what it lists has to be read. Tests are left out, but for points 1 and 3.
"""
import collections
import glob
import re
import sys


def sources(tests):
    for path in sorted(glob.glob("crates/*/src/**/*.rt", recursive=True)):
        with open(path, encoding="utf-8") as file:
            text = file.read()
        yield path, text if tests else text.split("#[cfg(test)]")[0]


def lines_like(pattern, tests=False):
    for path, text in sources(tests):
        for number, line in enumerate(text.split("\n"), 1):
            if re.search(pattern, line) and not re.match(r"\s*//", line):
                yield f"{path}:{number}: {line.strip()}"


def closing(text, start):
    """The place of the brace that closes the one at `start`."""
    depth = 0
    for at in range(start, len(text)):
        depth += {"{": 1, "}": -1}.get(text[at], 0)
        if depth == 0:
            return at
    return len(text)


def functions(text):
    """The name, parameters, clauses and body of each function that has a body."""
    for found in re.finditer(r"\bfn (\w+)(?:<[^(]*>)?\(((?:[^()]|\([^()]*\))*)\)", text):
        at, clauses = found.end(), []
        while at < len(text) and text[at] not in "{;":
            clause = re.compile(r"(requires|ensures)( \w+)? \{").match(text, at)
            if clause:
                end = closing(text, clause.end() - 1)
                clauses.append(" ".join(text[clause.end() : end].split()))
                at = end
            at += 1
        if at < len(text) and text[at] == "{":
            parameters = [" ".join(part.split()) for part in found.group(2).split(",") if ":" in part]
            yield found.group(1), parameters, clauses, text[at : closing(text, at) + 1]


def enums_and_options():
    """Enums; answers that are an Option of a refusal; one of Option and Result turned by hand; numbers and letters of a kind."""
    yield from lines_like(r"^\s*(pub(\(crate\))? )?enum ", True)
    yield from lines_like(r"\bfn .*(-> |: )Option<(Refusal|Unpriced)>", True)
    yield from lines_like(r"\bSome\((\w+)\) => (Err\(\1\)|\1\b)|\bErr\(_\) =>", True)
    yield from lines_like(r"\bfn (number|letter)\b")


def twins():
    """Functions whose bodies are alike but for the names in them, and functions on a word that a method repeats."""
    shapes = collections.defaultdict(list)
    for path, text in sources(False):
        for name, _, _, body in functions(text):
            shape = re.sub(r"\b(?!if|else|for|in|match|return|let|mut|as)[A-Za-z_]\w*", "i", " ".join(body.split()))
            shapes[re.sub(r"\b\d\w*", "n", shape)].append(f"{path}: {name}")
    for shape, places in sorted(shapes.items()):
        yield from (f"{place}   {shape}" for place in places if len(places) > 1)
    yield from lines_like(r"\bfn \w+\((a|word|count|number): (u64|usize)(, \w+: \w+)?\) -> (u64|bool|usize)")


def loops():
    yield from lines_like(r"^\s*('\w+: )?(for .* in |while |loop \{)", True)


def by_hand():
    """Comparing, converting and printing: functions of such names, casts, and items printed one by one."""
    yield from lines_like(r"\bfn (eq|cmp|partial_cmp|compare|clone|from_\w+|to_\w+|number|letter|fmt|smaller|wanted)\b")
    yield from lines_like(r"[\w)] as (u8|u16|u32|u64|usize|isize)\b")
    yield from lines_like(r'\bprint!\(rt; "[^"{]*\{\w+\}(\{\w+\})?"\)')


def repeated_facts():
    """A clause, the word mask or Valid in a clause, or a pair of parameters, in three functions of a crate or more."""
    places = collections.defaultdict(set)
    for path, text in sources(False):
        crate = path.split("/")[1]
        for name, parameters, clauses, _ in functions(text):
            place = f"{path}: {name}"
            for clause in clauses:
                places[crate, clause].add(place)
                for word in re.findall(r"\b(mask|Valid)\b", clause):
                    places[crate, word].add(place)
            for index, first in enumerate(parameters):
                for second in parameters[index + 1 :]:
                    places[crate, f"({first}, {second})"].add(place)
    for (_, fact), where in sorted(places.items()):
        yield from (f"{place}   {fact}" for place in sorted(where) if len(where) > 2)


def buffers():
    """Fields that are a lent slice or a count, places in one, lists side by side, and arrays with a length beside them."""
    yield from lines_like(r"^\s*(pub(\(crate\))? )?\w+: (&'\w+ (mut )?\[|usize,|u16,|u8,)")
    yield from lines_like(r"\bclauses: &\[&\[i32\]\],? ?(weights: &\[W\])?|\(\w+: &mut \[\w+\], (n|at): usize")
    yield from lines_like(r"let mut \w+ = \[")


def switches():
    yield from lines_like(r"\bfn\(|\bdyn\b|\bmatch (self\.)?(step|phase|mode|state)\b")


def answers_and_lemmas():
    for path in sorted(glob.glob("crates/*/proofs/**/*.antt", recursive=True)):
        with open(path, encoding="utf-8") as file:
            yield from (f"{path}: {name}" for name in re.findall(r"^(?:abbrev )?(?:pub )?(\S+) : ", file.read(), re.M))


POINTS = {
    1: enums_and_options,
    2: twins,
    3: loops,
    4: by_hand,
    5: repeated_facts,
    6: buffers,
    7: switches,
    8: answers_and_lemmas,
}

if __name__ == "__main__":
    if len(sys.argv) > 1:
        print("\n".join(POINTS[int(sys.argv[1])]()))
    else:
        for point, places in POINTS.items():
            print(point, len(list(places())))
