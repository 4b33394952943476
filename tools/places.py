#!/usr/bin/env python3
"""Lists places in the crates' sources where an older form may stand, point by point.

usage: tools/places.py [POINT..]     at the top of the repository; without POINT all of 1 to 7

A line that is listed is a place to look at; docs/DESIGN-PASS.md says of each whether it was changed or why it stays.
"""
import collections
import glob
import re
import sys


def sources():
    for path in sorted(glob.glob("crates/*/src/**/*.rt", recursive=True)):
        with open(path, encoding="utf-8") as file:
            yield path, file.read()


def by_line(*patterns):
    found = []
    for path, text in sources():
        for number, line in enumerate(text.split("\n"), 1):
            if line.lstrip().startswith("//"):
                continue
            if any(re.search(pattern, line) for pattern in patterns):
                found.append(f"{path}:{number}: {line.strip()[:110]}")
    return found


def functions():
    """Each function with its parameters and its body, without its clauses."""
    for path, text in sources():
        for match in re.finditer(r"^( *)(?:pub(?:\([a-z]+\))? )?fn (\w+)", text, re.M):
            end = re.search(r"^%s(\}|\{\})|;$" % match.group(1), text[match.end():], re.M)
            if not end:
                continue
            whole = text[match.start():match.end() + end.end()]
            line = text.count("\n", 0, match.start()) + 1
            clauses = re.search(r"^ +(requires|ensures)\b", whole, re.M)
            head = whole[:clauses.start()] if clauses else whole.split("{", 1)[0]
            body = re.search(r"^%s\{$(.*)" % match.group(1), whole, re.M | re.S)
            inner = body.group(1) if body else whole.split("{", 1)[-1]
            yield path, line, match.group(2), head, inner


def shape(text):
    text = re.sub(r"//[^\n]*", "", text)
    text = re.sub(r'b?"(?:[^"\\]|\\.)*"', "S", text)
    text = re.sub(r"\b\d[\w]*\b", "0", text)
    return re.sub(r"\s+", "", re.sub(r"\b(?!if\b|else\b|for\b|while\b|match\b|let\b|mut\b|return\b)[A-Za-z_]\w*", "x", text))


def twins():
    groups = collections.defaultdict(list)
    for path, line, name, head, body in functions():
        form = shape(body)
        if len(form) > 12:
            groups[shape(head.split("(", 1)[-1]), form].append(f"{path}:{line}: {name}")
    return ["  ~  ".join(group) for group in groups.values() if len(group) > 1]


def parameter_groups():
    groups = [
        ("the parts of a mask", ["permutations:", "layers:", "free:", "coins:"]),
        ("layers of one length", ["layer_len:", "layer_count:"]),
        ("a matrix and a vector", ["matrix:", "columns:"]),
        ("three commitments", ["one:", "two:", "three:"]),
        ("a line's memory", ["numbers:", "coins:"]),
        ("the log's memory", ["records:", "bytes:"]),
        ("a relation and a scheme", ["relation:", "scheme:"]),
        ("a message and an offset in it", ["message:", "offset:"]),
    ]
    found = []
    for path, line, name, head, _ in functions():
        parameters = set(re.findall(r"\b(\w+:)", head))
        for title, group in groups:
            if parameters.issuperset(group):
                found.append(f"{path}:{line}: {name}: {title}")
    return found


POINTS = {
    "1": lambda: by_line(
        r"^(pub )?enum Verdict",
        r"-> (Result<)?Option<(Refusal|Cause)>",
        r"if let (Err|Some)\((refusal|cause)\) = ",
        r"(None|Err\(\w+\)) => (return )?Err\(",
        r"\b(less_target|modulus_in|bound_in): bool",
        r"\b(challenge|commitment|number): (u8|usize)\b",
        r"MatchResult result \(λ .*\(λ _\. ⊥\)",
    ),
    "2": twins,
    "3": lambda: by_line(
        r"\bfor \w+ in \(?[\w.()]+ ?\.\.",
        r"\bwhile ",
        r"(?<!')\bloop \{",
        r"^\s*(found|count|done|sum|i) \+= ",
    ),
    "4": lambda: by_line(
        r"fn from_number\b",
        r"\(Line::\w+(\(\w+\))?, Line::",
        r" as u16 \* 256",
        r"/ 256\) as u8",
        r"fn (digit|hex)\b",
        r"Cause::from\(",
        r"match byte % 3",
    ),
    "5": parameter_groups,
    "6": lambda: by_line(r"^\s+(pub(\(crate\))? )?(len|filled|used|entries): usize,", r"^\s+(lines|table): \["),
    "7": lambda: by_line(r"\b\w+: bool\b", r"(?<!\w)fn\(", r"\bdyn\b"),
}


def main():
    for point in sys.argv[1:] or sorted(POINTS):
        places = POINTS[point]()
        print(f"point {point}: {len(places)} places")
        for place in places:
            print(f"  {place}")


main()
