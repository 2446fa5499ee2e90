#!/usr/bin/env python3
"""Fails if include/vakhudle.h, rust/src/raw.rs and the exports of crates/abi/src/lib.rt differ, and names each difference.

All three have the same functions in the same order, which take the same parameters, by name and type, and return the same. They are compared as Rust
writes them. A slice of an export is two parameters, `xs: &[u8]` for one `xs: *const u8, xs_len: usize`, and `&mut [u8]` for one `*mut u8`; what an
export calls `out`, the others call by what it takes, as `symbols_out`. An export with two such lists calls them as the others do.
"""
import itertools
import pathlib
import re
import sys

ROOT = pathlib.Path(__file__).resolve().parent.parent
TYPES = {"uint8_t": "u8", "uint16_t": "u16", "uint32_t": "u32", "int16_t": "i16", "int32_t": "i32", "size_t": "usize"}
NAME = r"(?P<name>\w+)\((?P<parameters>[^()]*)\)"


class Unread(Exception):
    """A file has something in another form than is read here."""


def matched(pattern, text):
    found = re.search(pattern, text, re.S)
    if not found:
        raise Unread(f"another form than is read here: {' '.join(text.split())[:80]}")
    return found


def listed(parameters):
    """The parameters, each with single spaces."""
    return [" ".join(p.split()) for p in parameters.split(",") if p.strip()]


def of_c(parameter):
    """`const uint8_t *xs` is `xs: *const u8`."""
    const, kind, pointer, name = matched(r"^(const )?(\w+) (\*?)(\w+)$", parameter).groups()
    pointer = pointer and ("*const " if const else "*mut ")
    return [f"{name}: {pointer}{TYPES.get(kind, kind)}"]


def of_rust(parameter):
    return [parameter]


def of_rattle(parameter):
    """A slice is a pointer and its length."""
    name, slice_, kind = matched(r"^(\w+): (&(?:mut )?\[)?(\w+)\]?$", parameter).groups()
    if not slice_:
        return [parameter]
    return [f"{name}: {'*mut' if 'mut' in slice_ else '*const'} {kind}", f"{name}_len: usize"]


def written_out(text):
    """What over_code! declares, as plain declarations: the parameters of a code, and then pointers with a length behind each."""
    macro = matched(r"macro_rules! over_code \{.*?pub fn \$name\((.*?)\$\(\$list: \$pointer, _: usize\),\+\s*\) -> (\w+);.*?\n\}\n", text)
    code, returned = macro.groups()

    def declarations(uses):
        lines = []
        for use in re.finditer(NAME + ";", uses[1]):
            pairs = [f"{p}, {p.split(':')[0]}_len: usize" for p in listed(use["parameters"])]
            lines.append(f"pub fn {use['name']}({code} {', '.join(pairs)}) -> {returned};")
        return "\n".join(lines)

    return re.sub(r"over_code! \{\n(.*?)\n\}", declarations, text.replace(macro[0], ""), flags=re.S)


# for each file: how a function is declared, what begins each declaration, and how a parameter is read
FORMS = {
    "include/vakhudle.h": (r"(?P<returned>\w+) " + NAME + ";", r"\w\(", of_c),
    "rust/src/raw.rs": (r"pub fn " + NAME + r" -> (?P<returned>\w+);", r"\bfn\b", of_rust),
    "crates/abi/src/lib.rt": (r'#\[unsafe\(no_mangle\)\]\s+pub extern "C" fn ' + NAME + r" -> (?P<returned>\w+)", r"\bextern\b", of_rattle),
}


def functions(file):
    """The file's functions: name, parameters, and the type returned."""
    text = (ROOT / file).read_text(encoding="utf-8")
    text = re.sub(r"//[^\n]*|/\*.*?\*/", "", text, flags=re.S)
    if file.endswith(".rs"):
        text = written_out(text)
    form, beginning, read = FORMS[file]
    found = list(re.finditer(form, text))
    if len(found) != len(re.findall(beginning, text)) or not found:
        raise Unread(f"{file} declares a function in another form than is read here")
    result = []
    for f in found:
        parameters = [q for p in listed(f["parameters"]) for q in read(p)]
        result.append((f["name"], parameters, TYPES.get(f["returned"], f["returned"])))
    return result


def short(function):
    """`symbols_out` as an export calls it."""
    name, parameters, returned = function
    if sum("_out:" in p for p in parameters) > 1:
        return function
    return name, [re.sub(r"^[a-z]+_out", "out", p) for p in parameters], returned


def differences(one, other):
    """What two lists of functions do not have in common, in words."""
    for f, g in itertools.zip_longest(one, other, fillvalue=("nothing", [], "nothing")):
        if f[0] != g[0]:
            yield f"{g[0]} stands where {f[0]} should"
            return
        for p, q in itertools.zip_longest(f[1], g[1], fillvalue="nothing"):
            if p != q:
                yield f"{f[0]} has `{q}` where `{p}` should stand"
        if f[2] != g[2]:
            yield f"{f[0]} returns {g[2]} and should return {f[2]}"


def main():
    faults = []
    try:
        header, raw, exports = (functions(file) for file in FORMS)
        faults += [f"raw.rs beside the header: {d}" for d in differences(header, raw)]
        faults += [f"the exports beside the header: {d}" for d in differences([short(f) for f in header], exports)]
    except Unread as fault:
        faults.append(str(fault))
    sys.exit("\n".join(faults) if faults else 0)


if __name__ == "__main__":
    main()
