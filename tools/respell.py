#!/usr/bin/env python3
"""Brings the definitions and lemmas of this repository to the spelling of today's Rattle: words in snake case, types in upper camel case.

usage: python3 tools/respell.py [--report]      at the top, once, right after the kit's port.py

It collects every name that specs/ and proofs/ declare (Proof.antt aside, whose names follow what the check generates), and writes each of them anew
wherever it stands: in .antt files, in the clauses and `ghost use` lines of .rt files, and in the must-fail edits. Functions, types and locals of the
program, strings and the names that Rattle generates are left alone. --report writes nothing and lists names that would fall together.
"""
import collections
import glob
import os
import re
import sys

WORD = r"[^\s(){}.;,@\"«»\[\]\\|]+"
TOKEN = re.compile(r"--[^\n]*|\"(?:[^\"\\]|\\.)*\"|«[^»]*»|" + WORD)
DECL = re.compile(r"^( *)((?:pub |abbrev |unfoldable )*)((?:[^\s(){}.;,@\"=:|]+)(?: [^\s(){}.;,@\"=:|]+)*) : (.*)")
HEAD = re.compile(r"^( *)((?:pub |abbrev |unfoldable )*)(record|data) (?:pub )?([^\s(){}:]+)")

# Names that would fall together with another one: the definition keeps the plain spelling, the lemma or field on it gets one of its own.
APART = {
    "free-at": "free_at_lem",
    "set-places": "set_places_lem",
    "is-place": "each_is_place",
    "place_at": "place_at_lem",
    "after-code": "after_code_lem",
    "on-curve": "on_curve_lem",
    "point_at": "point_at_lem",
    "unit-message": "unit_message_lem",
    "all_in": "all_in_lem",
    "right-count": "right_count_lem",
    "symbol-at": "symbol_at_lem",
    "all-places": "are_all_places",
    "systematic-word": "of_systematic_word",
    "systematic-function": "of_systematic_function",
    "kept-symbols": "kept_symbols_lem",
    "kept_in": "kept_in_lem",
    "first_rows": "first_rows_lem",
    "places-found": "places_found_lem",
    "ones-counted": "ones_counted_lem",
    "inOrder": "order_of_tests",
    "total-at": "total_at_lem",
    "tries-made": "tries_counted",
    "all-tries": "tries_in_all",
    "never-rising": "numbers_never_rise",
    "in-rank-order": "picked_in_rank_order",
    "rolling-mean": "gives_rolling_mean",
    "next-hour": "at_next_hour",
    "degree-from": "degree_from_lem",
    "same_point": "same_point_lem",
    "sum-from": "sum_from_lem",
    "value-at": "value_at_lem",
    "pair-in": "pair_in_lem",
    "is_field": "is_field_lem",
    "log-at": "log_at_lem",
    "clmul-step": "clmul_step_lem",
    "reduce-step": "reduce_step_lem",
    "in-hour": "in_hour_lem",
    "in-hours": "in_hours_lem",
    "single-left": "single_left_lem",
    "pair_left": "pair_left_lem",
    "triple-left": "triple_left_lem",
    "places-in": "places_in_lem",
    "is_digit": "is_digit_lem",
}
# Names that the kit's port.py has in snake case already, and that are lemmas: as words of a clause or after a dot they are something else.
SNAKE_BEFORE = {n for n in APART if "-" not in n and n == n.lower()}


def snake(name):
    name = name.replace("getD", "get_or").replace("natAbs", "nat_abs")
    out = ""
    for i, ch in enumerate(name):
        out += "_" + ch.lower() if ch.isupper() and i > 0 and name[i - 1].islower() else ch
    return out.replace("-", "_")


def sources():
    for kind in ("specs", "proofs"):
        for path in sorted(glob.glob(f"crates/*/{kind}/**/*.antt", recursive=True)):
            yield path


def declared():
    names, types, fields = collections.defaultdict(set), set(), set()
    for path in sources():
        if path.endswith("/Proof.antt"):
            continue
        lines = open(path, encoding="utf-8").read().split("\n")
        for i, line in enumerate(lines):
            head = HEAD.match(line)
            if head:
                names[head.group(4)].add(path)
                types.add(head.group(4))
                continue
            if line.lstrip().startswith(("--", "let ", "use ", "|", "pub use ", "module ", "mod ")):
                continue
            m = DECL.match(line)
            if not m:
                continue
            sign = m.group(4)
            j = i + 1
            while j < len(lines) and re.match(r"^\s+→", lines[j]):
                sign += lines[j]
                j += 1
            for name in m.group(3).split(" "):
                names[name].add(path)
                if m.group(1):
                    fields.add(name)
                if re.search(r"Type 0\s*$", sign):
                    types.add(name)
    return names, types, fields


def renaming(names, types):
    new = {}
    for name in names:
        if "◌" in name or not re.search(r"[A-Za-z]", name):
            continue
        if name in APART:
            new[name] = APART[name]
        elif name in types:
            if "·" in name:
                new[name] = name.replace("·", "")
        elif snake(name) != name:
            new[name] = snake(name)
    return new


def turn(text, new, fields):
    out, last = [], 0
    spans = list(library_lines(text))
    for m in TOKEN.finditer(text):
        word = m.group(0)
        if any(a <= m.start() < b for a, b in spans):
            continue
        if word.startswith(("--", '"', "«")) or word not in new:
            continue
        after_dot = m.start() > 0 and text[m.start() - 1] == "."
        before = re.search(r"([^\s(){};,]*)\.$", text[: m.start()]) if after_dot else None
        if after_dot and before and re.match(r"(tie|lts|reads|goal|Rattle\.)", before.group(1)) and not before.group(1).startswith("Rattle."):
            continue
        if after_dot and word in SNAKE_BEFORE and word not in fields:
            continue
        out.append(text[last : m.start()])
        out.append(new[word])
        last = m.end()
    out.append(text[last:])
    return "".join(out)


USE = re.compile(r"^(?:pub |ghost )*use ([^\s;{]+)\.\{([^}]*)\}", re.M)


def of_the_library(text):
    """What a file imports from modules that are not this repository's: those names keep their spelling there."""
    crates = {p.split("/")[1] for p in glob.glob("crates/*/src")}
    found = set()
    for m in USE.finditer(text):
        parts = m.group(1).split(".")
        if parts[0] == "Rattle" and len(parts) > 1 and parts[1] in crates:
            continue
        found |= {w.strip().split(" as ")[-1] for w in m.group(2).split(",")}
    return found


def library_lines(text):
    """The spans of the imports from the library, in which nothing is renamed."""
    crates = {p.split("/")[1] for p in glob.glob("crates/*/src")}
    for m in USE.finditer(text):
        parts = m.group(1).split(".")
        if parts[0] != "Rattle" or len(parts) < 2 or parts[1] not in crates:
            yield m.start(), m.end()


def without(new, text):
    found = of_the_library(text)
    return {k: v for k, v in new.items() if k not in found}


GHOST = re.compile(r"ghost use [^;]*;|(?:requires|ensures|ghost)\*?(?: \w+:?)? \{")


def clauses(text):
    """The spans of a .rt file that are antt: imports and clauses."""
    for m in GHOST.finditer(text):
        if m.group(0).startswith("ghost use"):
            yield m.start(), m.end()
            continue
        depth, i = 1, m.end()
        while depth:
            depth += {"{": 1, "}": -1}.get(text[i], 0)
            i += 1
        yield m.end(), i - 1


def turn_rt(text, new, fields):
    kept = {k: v for k, v in new.items() if k not in SNAKE_BEFORE}
    out, last = [], 0
    for a, b in clauses(text):
        out.append(text[last:a])
        out.append(turn(text[a:b], kept, fields))
        last = b
    out.append(text[last:])
    return "".join(out)


def main():
    names, types, fields = declared()
    new = renaming(names, types)
    report = "--report" in sys.argv
    if report:
        inverse = collections.defaultdict(set)
        for name in names:
            inverse[new.get(name, name)].add(name)
        for name, olds in sorted(inverse.items()):
            if len(olds) > 1:
                print("fall together:", name, sorted(olds))
        made = set(new.values())
        for path in list(sources()):
            text = open(path, encoding="utf-8").read()
            words = {m.group(0) for m in TOKEN.finditer(text)}
            for word in sorted(words & made):
                print("stands already:", word, path)
        for path in sorted(glob.glob("crates/*/src/**/*.rt", recursive=True)):
            text = open(path, encoding="utf-8").read()
            for a, b in clauses(text):
                for m in TOKEN.finditer(text[a:b]):
                    if m.group(0) in made:
                        print("stands already:", m.group(0), path)
        return 0
    for path in sources():
        text = open(path, encoding="utf-8").read()
        turned = turn(text, without(new, text), fields)
        if turned != text:
            open(path, "w", encoding="utf-8").write(turned)
    for path in sorted(glob.glob("crates/*/src/**/*.rt", recursive=True)):
        text = open(path, encoding="utf-8").read()
        turned = turn_rt(text, without(new, text), fields)
        if turned != text:
            open(path, "w", encoding="utf-8").write(turned)
    for path in sorted(glob.glob("crates/*/must-fail/*.edit")):
        lines = open(path, encoding="utf-8").read().split("\n")
        rt = any(l.startswith("file:") and l.strip().endswith(".rt") for l in lines)
        kept = {k: v for k, v in new.items() if k not in SNAKE_BEFORE}
        for i, line in enumerate(lines):
            if not line.startswith(("old:", "new:")):
                continue
            if not rt:
                lines[i] = turn(line, new, fields)
            elif re.search(r"requires|ensures|ghost|≡|⌜", line):
                lines[i] = turn(line, kept, fields)
        open(path, "w", encoding="utf-8").write("\n".join(lines))
    return 0


if __name__ == "__main__":
    raise SystemExit(main())
