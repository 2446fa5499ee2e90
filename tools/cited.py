#!/usr/bin/env python3
"""Fails if docs/PROOF.md cites a definition, theorem, function, edit or file that does not exist, and names each.

`CRATE/specs/File: a, b` and `CRATE/proofs/File: a` are names declared in crates/CRATE/../File.antt, `CRATE/src/file: f` items of file.rt,
`CRATE/edit` an edit of crates/CRATE/must-fail, and anything else with a slash a file or folder of the project, or of target/.
"""
import pathlib
import re
import sys

ROOT = pathlib.Path(__file__).resolve().parent.parent
CRATES = ROOT / "crates"


def declared(text, name, rust):
    """Whether the file declares the name."""
    name = re.escape(name)
    if rust:
        return re.search(rf"\b(fn|struct|enum|const) {name}\b", text)
    return re.search(rf"^\s*((abbrev|unfoldable) )?(pub )?((record|data) )?{name}( [^:\n]*)? ?:", text, re.M)


def missing(entry):
    """What of an entry does not exist."""
    cited = re.fullmatch(r"(\w+)/(specs|proofs|src)/(\w+): (.*)", entry)
    if cited:
        crate, folder, file, names = cited.groups()
        path = CRATES / crate / folder / (file + (".rt" if folder == "src" else ".antt"))
        if not path.exists():
            return [str(path.relative_to(ROOT))]
        text = path.read_text(encoding="utf-8")
        return [f"{entry}: {n}" for n in names.split(", ") if not declared(text, n, folder == "src")]
    edit = re.fullmatch(r"(\w+)/(\w+)", entry)
    if edit and (CRATES / edit[1]).is_dir() and (CRATES / edit[1] / "must-fail" / (edit[2] + ".edit")).exists():
        return []
    built = entry.startswith("target/")
    return [] if "/" not in entry or built or (ROOT / entry).exists() else [entry]


def main():
    text = (ROOT / "docs/PROOF.md").read_text(encoding="utf-8")
    text = text.split("\n## ", 1)[1]  # the introduction explains the notation
    entries = dict.fromkeys(re.findall(r"`([^`]+)`", text))
    faults = [fault for entry in entries for fault in missing(entry)]
    sys.exit("\n".join(faults) if faults else 0)


if __name__ == "__main__":
    main()
