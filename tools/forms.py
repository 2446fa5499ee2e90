#!/usr/bin/env python3
"""Counts older forms in the sources of crates/, as docs/DESIGN-PASS.md lists them: forms.py [-v] [ROOT].

-v names each place. Each count is a rule on the text, so a reader still has to look at what it finds.
"""
import glob
import os
import re
import sys

VERBOSE = "-v" in sys.argv
ROOT = next((it for it in sys.argv[1:] if it != "-v"), ".")
FUNCTION = re.compile(r"(?m)^( *)(?:pub )?(?:const )?(?:extern \"C\" )?fn (\w+)(?:<[^>]*>)?\s*\(")


def closing(text, at):
    """The index of the bracket that closes the one at an index."""
    pairs = {"(": ")", "{": "}", "[": "]"}
    depth = 0
    for i in range(at, len(text)):
        if text[i] == text[at]:
            depth += 1
        elif text[i] == pairs[text[at]]:
            depth -= 1
            if depth == 0:
                return i
    raise ValueError(text[at : at + 40])


def functions(text):
    """The functions of a file: name, parameters, result, clauses and body."""
    for m in FUNCTION.finditer(text):
        end = closing(text, m.end() - 1)
        rest = text[end + 1 :]
        brace = re.search(r"(?m)^ *\{$|\{$", rest)
        start = end + 1 + rest.index("{", brace.start())
        head = text[end + 1 : start]
        result = re.match(r"\s*->\s*([^\n{]+?)\s*(?:\n|$|\{)", head)
        body = text[start : closing(text, start) + 1]
        yield m.group(2), text[m.end() : end], result.group(1) if result else "", head, body


def sources():
    for path in sorted(glob.glob(f"{ROOT}/crates/*/src/**/*.rt", recursive=True)):
        with open(path, encoding="utf-8") as file:
            yield os.path.relpath(path, ROOT), file.read()


def loops(body):
    """The bodies of while loops."""
    for m in re.finditer(r"\bwhile ([^{]+)\{", body):
        yield m.group(1).strip(), body[m.end() - 1 : closing(body, m.end() - 1) + 1]


def shape(body):
    """A body with its names numbered in their order, its numbers and its types left out."""
    names = {}

    def name(m):
        word = m.group(0)
        if word in ("let", "mut", "if", "else", "while", "for", "in", "return", "match", "as", "true", "false", "loop"):
            return word
        if re.fullmatch(r"[ui](8|16|32|64|size)", word):
            return "T"
        return f"v{names.setdefault(word, len(names))}"

    body = re.sub(r"//[^\n]*", "", body)
    body = re.sub(r"\b\d[\d_]*(?:[ui](?:8|16|32|64|size))?\b", "0", body)
    return re.sub(r"\s+", " ", re.sub(r"\b[a-zA-Z_]\w*\b", name, body))


found = {}


def note(point, place):
    found.setdefault(point, []).append(place)


shapes = {}
for path, text in sources():
    for m in re.finditer(r"(?m)^(?:pub )?enum (\w+) \{\n(.*?)^\}", text, re.S):
        variants = [it for it in re.findall(r"(?m)^    (\w+)(\(?)", m.group(2))]
        if 2 <= len(variants) <= 3 and any(v[1] for v in variants):
            note("1 enums of the shape of Option or Result", f"{path}: {m.group(1)}")
    for name, parameters, result, head, body in functions(text):
        place = f"{path}: {name}"
        if result == "Answer":
            note("1 functions that return an answer of their own", place)
        if result == "bool" and "&mut" in parameters:
            note("1 bool results beside a lent output", place)
        if re.search(r"powers: &\[u8; 1021\]|logs: &\[u16; 512\]", parameters):
            note("5 field number and tables as parameters", place)
        if re.search(r"\b(p|code): Parameters\b", parameters) and "xs: &[u8]" in parameters:
            note("5 a code as parameters and two lists", place)
        if re.search(r"\bTables (m|p\.field|code\.field) ", head):
            note("5 clauses that say what the tables are", place)
        if "≡ Done }" in head and "requires" in head:
            note("5 clauses that say that the code is accepted", place)
        if re.search(r"\bn: Sizes\b|\bn: Lengths\b", parameters):
            note("6 arrays with how much of them is used beside", place)
        for test, loop in loops(body):
            counter = re.search(r"(?m)^\s*(\w+) [+-]= (1|4);$", loop)
            if counter and re.search(rf"\b{counter.group(1)}\b", test):
                note("3 loops that count an index by hand", f"{place}: while {test}")
            else:
                note("3 other while loops", f"{place}: while {test}")
        casts = len(re.findall(r"\bas (?:u8|u16|u32|u64|usize|i16|i32|i64)\b", body))
        for _ in range(casts):
            note("4 casts", place)
        if re.fullmatch(r"\{\s*\w+ as \w+\s*\}", body):
            note("4 functions that convert", place)
        if body.count("\n") >= 4:
            shapes.setdefault(shape(body), []).append(place)
    for m in re.finditer(r"\b(\w+): \1,", text):
        note("4 fields written twice", f"{path}: {m.group(1)}")
for places in shapes.values():
    if len(places) > 1:
        note("2 functions of one shape", "; ".join(places))
for path in sorted(glob.glob(f"{ROOT}/crates/*/proofs/**/Answers.antt", recursive=True)):
    with open(path, encoding="utf-8") as file:
        text = file.read()
    found.setdefault("8 lines of answers", []).extend([""] * text.count("\n"))
    for m in re.finditer(r"(?m)^(\w+_[2-9]) :", text):
        note("8 helpers written once more", f"{os.path.relpath(path, ROOT)}: {m.group(1)}")
for point in sorted(found):
    print(f"{len(found[point]):6}  {point}")
    if VERBOSE and point != "8 lines of answers":
        for place in found[point]:
            print(f"            {place}")
