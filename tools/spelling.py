#!/usr/bin/env python3
"""Spells the names of definitions and lemmas as today's Rattle does: words in snake case.

usage: python3 tools/spelling.py [--list]      at the top of the repository, once, after port.py

It turns names that are declared in crates/*/specs/ and crates/*/proofs/*.antt (and record fields there): `decodeOf` to `decode_of`, `map-take` to
`map_take`, the features' `AVX` to `avx`. It rewrites .antt files, the clauses of .rt files, and names between backticks in README.md and docs/, but for
docs/CHANGES.md, which speaks of each landing in the words of its day. Names that proof files of a function declare for themselves stay, and so do functions
of src/, exported names, strings, inputs and outputs. --list prints the names, old and new, and changes nothing.
"""

import os
import re
import sys

TOKEN = re.compile(r"(?<![\w'◌-])[A-Za-z_][\w'-]*(?![\w'◌-])")
# A name at the beginning of a line, with its implicit arguments, and then its type.
DECLARED = re.compile(r"^\s*(?:(?:abbrev|unfoldable|pub|data|record)\s+)*([^\s:(){}=.,;]+)(?:\s*\{[^}]*\})*\s+:\s")
RULESET = re.compile(r"^\s*(?:pub )?ruleset (\S+) =")
CONSTANT = re.compile(r"^(AVX\w*|W0|W1)$")

# Names that would fall together with another: a lemma with the definition that it is about, a definition with a field.
OWN = {
    "accepted-line": "accepted_line_is",
    "refused-line": "refused_line_is",
    "file-size": "file_has_size",
    "mask-count": "masks_have_count",
    "is-map": "is_map_of",
    "is-vex": "vex_if",
    "line-most": "line_has_most",
    "moved-map": "moved_maps",
    "on-decoded": "on_decoded_is",
    "origin-by": "origin_by_control",
    "parts-by": "parts_by_is",
    "prefix-size": "prefix_size_is",
    "runs-test": "runs_tested",
    "without-base": "without_a_base",
    "zero-entry": "zero_entry_stays",
    "hasImmediate": "has_immediate_of",
    "lastLine": "last_lines",
    "fourBytes": "four_bytes_at",
}


def spelled(name):
    if name in OWN:
        return OWN[name]
    if CONSTANT.match(name):
        return name.lower()
    name = name.replace("-", "_")
    if not re.match(r"[a-z_]", name):
        return name
    return re.sub(r"([a-z0-9])([A-Z])", lambda m: m.group(1) + "_" + m.group(2), name).lower()


def files(ending):
    for folder, dirs, names in os.walk("crates"):
        dirs[:] = sorted(d for d in dirs if d != "out")
        for name in sorted(names):
            if name.endswith(ending):
                yield os.path.join(folder, name)


def read(path):
    with open(path, encoding="utf-8") as f:
        return f.read()


def declared():
    found = {}
    for path in files(".antt"):
        if os.path.basename(path) == "Proof.antt":
            continue
        for line in read(path).split("\n"):
            if line.strip().startswith("--"):
                continue
            for pattern in (DECLARED, RULESET):
                m = pattern.match(line)
                if m and "◌" not in m.group(1) and spelled(m.group(1)) != m.group(1):
                    found[m.group(1)] = spelled(m.group(1))
    return found


def turned(text, names, only=None):
    return TOKEN.sub(lambda m: names[m.group(0)] if m.group(0) in names and (only is None or only(m.group(0))) else m.group(0), text)


def camel(name):
    return "-" not in name and not CONSTANT.match(name)


def by_line(text, mark, names, code):
    """The lines of a file: code by all names, comments by those that no plain word can be."""
    lines = []
    for line in text.split("\n"):
        at = line.find(mark)
        # A mark inside a string or a clause's text does not occur in this repository.
        head, tail = (line, "") if at < 0 else (line[:at], line[at:])
        lines.append(code(head) + turned(tail, names, camel))
    return "\n".join(lines)


def rt_code(names):
    def code(head):
        parts = re.split(r'("(?:[^"\\]|\\.)*")', head)
        return "".join(p if p.startswith('"') else turned(p, names, lambda n: not CONSTANT.match(n)) for p in parts)

    return code


def main():
    names = declared()
    if "--list" in sys.argv[1:]:
        for name in sorted(names):
            print(name, names[name])
        return 0
    together = {}
    for name, new in names.items():
        together.setdefault(new, []).append(name)
    for new, olds in sorted(together.items()):
        if len(olds) > 1:
            print(f"spelling: {' and '.join(sorted(olds))} would both be {new}", file=sys.stderr)
            return 1
    for path in files(".antt"):
        text = read(path)
        new = by_line(text, "--", names, lambda head: turned(head, names))
        if new != text:
            open(path, "w", encoding="utf-8").write(new)
    for path in files(".rt"):
        text = read(path)
        new = by_line(text, "//", names, rt_code(names))
        if new != text:
            open(path, "w", encoding="utf-8").write(new)
    pages = ["README.md"] + [os.path.join("docs", p) for p in sorted(os.listdir("docs")) if p.endswith(".md") and p != "CHANGES.md"]
    for path in pages:
        text = read(path)
        new = re.sub(r"`[^`\n]*`", lambda m: m.group(0) if "/" in m.group(0) else turned(m.group(0), names), text)
        if new != text:
            open(path, "w", encoding="utf-8").write(new)
    print(f"spelling: {len(names)} names")
    return 0


if __name__ == "__main__":
    raise SystemExit(main())
