#!/usr/bin/env python3
"""Counts, in crates/*/src, the places that docs/DESIGN-PASS.md speaks of, point by point.

    python3 tools/count_places.py            the counts
    python3 tools/count_places.py --list     with each place, as file:line: text

A place is what its pattern finds; the page says which of them stay, and why.
"""
import collections
import glob
import re
import sys

FILES = sorted(glob.glob("crates/*/src/**/*.rt", recursive=True))
TEXT = {f: open(f, encoding="utf-8").read() for f in FILES}
CODE = {f: re.sub(r"//[^\n]*", lambda m: " " * len(m.group()), t) for f, t in TEXT.items()}


def line_of(text, at):
    return text.count("\n", 0, at) + 1


def found(pattern, flags=re.M):
    for f, text in CODE.items():
        for m in re.finditer(pattern, text, flags):
            shown = " ".join(m.group().split())
            yield f"{f}:{line_of(text, m.start())}", shown[:100]


def functions():
    """Each function: where it is, its signature up to the first clause or brace, and its body."""
    for f, text in CODE.items():
        for m in re.finditer(r"^( *)(?:pub )?(?:extern \"C\" )?(?:final )?fn (\w+)", text, re.M):
            end = text.find("\n" + m.group(1) + "}", m.start())
            whole = text[m.start(): end if end > 0 else len(text)]
            head = re.split(r"\n\s*(?:requires|ensures)\b|\{\n|;\n", whole, maxsplit=1)[0]
            yield f"{f}:{line_of(text, m.start())}", m.group(2), head, whole


def loops():
    """Each loop: where it is, its head, and its body."""
    for f, text in CODE.items():
        for m in re.finditer(r"^( *)(?:'\w+: )?((?:for|while|loop)\b[^\n]*)\{\n", text, re.M):
            end = text.find("\n" + m.group(1) + "}", m.start())
            yield f"{f}:{line_of(text, m.start())}", m.group(2).strip(), text[m.end(): end]


def rebuilt():
    yield from found(r"let (?:Some|Ok)\([^\n]*else \{\n\s*return (?:None|Ok\(None\)|Fault::Memory);")
    yield from found(r"^\s*Some\((\w+)\) => (?:return )?(?:Ok|Some)\(\1(?: as \w+)?\),|^\s*Ok\((\w*)\) => Ok\(\2\),|^\s*Ok\(\(\)\) => Ok\(\(\)\),|^\s*Err\((\w+)\) => Err\(\3\),|^\s*None => None,")


def success_as_bool():
    for at, name, head, _ in functions():
        if re.search(r"-> (?:io::)?(?:Result<|Option<)?bool", head) and "&mut" in head:
            yield at, f"fn {name}"
        if re.search(r"&mut bool", head):
            yield at, f"fn {name} (flag lent)"


def result_shaped():
    names = r"(Done|Judged|Verdict|Found|Line)"
    yield from found(r"^(?:pub )?enum " + names + r" \{")


def numbers_for_things():
    yield from found(r"^pub fn \w+\(\) -> u8")
    yield from found(r"^\s*(?:pub )?(?:tag|side): u32|Word\([0-2]\)|\.mark\([01],|-> Option<u32> \{\n\s*match self.lexer.kind|else \{\n\s*0\n\s*\}\n\}")
    for at, name, head, whole in functions():
        if name == "find" and "-> usize" in head:
            yield at, "fn find (the number of rows for none)"


def hand_counted():
    for at, head, body in loops():
        m = re.match(r"for (\w+) in .*\.\.", head)
        if m and re.search(r"\[[^\]\n]*\b" + m.group(1) + r"\b|get(?:_mut)?\(\s*" + m.group(1) + r"\b|row\(" + m.group(1) + r"\)|result\(" + m.group(1) + r"\)", body):
            yield at, head
        elif head.startswith(("while", "loop")) and re.search(r"^\s*\w+ [+-]= ", body, re.M):
            yield at, head
        elif "enumerate()" in head and re.search(r"return (?:Some\()?i\b", body):
            yield at, head + "  (a search for a place)"
        elif head.startswith("for") and re.fullmatch(r"\s*(?:\w+\.)*\w+\.push\([^;]*\)\?;", body):
            yield at, head + "  (pushes each)"
        elif head.startswith("for") and re.fullmatch(r"\s*if [^{]*\{\s*return (?:None|true|false|Some\(\w+\));\s*\}", body):
            yield at, head + "  (a test of each)"


def by_hand():
    yield from found(r"Ordering::\w+ => (?:true|false|break)[^\n]*")
    yield from found(r"^\s*a\[i\] [<>] b\[i\]|^\s*if a\.link[^\n]* != b\.link[^\n]*")
    for at, name, head, whole in functions():
        if re.search(r"-> &'static str", head):
            yield at, f"fn {name} (a word for a value)"
        if name in ("words", "same", "saturated") and "impl" not in head:
            if name != "saturated" or "u128" in head:
                yield at, f"fn {name}"


def clauses():
    count = collections.Counter()
    for f, text in CODE.items():
        for m in re.finditer(r"^\s*(?:requires|ensures) (?:\w+ )?\{ (.*) \}\s*$", text, re.M):
            count[re.sub(r"\.(?:now|old|new|entry)\b", "", m.group(1))] += 1
    for clause, n in sorted(count.items(), key=lambda p: -p[1]):
        if n >= 3:
            yield f"{n} times", clause[:100]


def long_parameters():
    for at, name, head, _ in functions():
        inner = head[head.find("(") + 1:]
        if len(re.findall(r"\b\w+: ", inner)) >= 6:
            yield at, f"fn {name}"


def lengths_beside():
    yield from found(r"^\s*(?:pub )?(?:used|depth|top|start|end|count|starts|rows|nexts|heads|ranks|order|sizes|links|sigs|longest|width|base): (?:usize|u32|Vec<\w+>|&'a mut \[u32\]),")


def switches():
    yield from found(r"^(?:pub )?enum (?:Rule|Making) \{")
    yield from found(r"parts: (?:true|false),")


POINTS = [
    ("1", "an Option or a Result taken apart and put together again", rebuilt),
    ("1", "success or an end told by a bool, beside what is changed", success_as_bool),
    ("1", "enums of the shape of a Result or an Option", result_shaped),
    ("1", "numbers for kinds, for none, or for nothing", numbers_for_things),
    ("3", "loops that count an index, search, test or push by hand", hand_counted),
    ("4", "comparing, converting and wording by hand", by_hand),
    ("5", "clauses that stand in three contracts or more", clauses),
    ("5", "functions with six parameters or more", long_parameters),
    ("6", "lengths, ends and arrays side by side in a struct", lengths_beside),
    ("7", "switches on which step to run", switches),
]

for point, what, places in POINTS:
    rows = list(places())
    print(f"{point}  {what}: {len(rows)}")
    if "--list" in sys.argv:
        for at, shown in rows:
            print(f"       {at}: {shown}")
