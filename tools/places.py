#!/usr/bin/env python3
"""Counts the places of the design pass: python3 tools/places.py [COMMIT]. docs/DESIGN-PASS.md says what each point is.

It reads crates/*/src of the checkout, or of a commit, and prints a line for each candidate: the point, the file and the line, and what it is.
The page says of each what became of it. A candidate is what a pattern can see; the page names those that only a reader sees.
"""
import collections
import re
import subprocess
import sys


def sources(commit):
    if commit:
        names = subprocess.check_output(["git", "ls-tree", "-r", "--name-only", commit], text=True).split("\n")
        names = [n for n in names if re.fullmatch(r"crates/\w+/src/\w+\.rt", n)]
        return {n: subprocess.check_output(["git", "show", f"{commit}:{n}"], text=True) for n in names}
    names = subprocess.check_output(["git", "ls-files", "crates"], text=True).split("\n")
    return {n: open(n).read() for n in names if re.fullmatch(r"crates/\w+/src/\w+\.rt", n)}


class Item:
    """A function or a type: its name, where it begins, and its text."""

    def __init__(self, file, line, kind, name, text):
        self.file, self.line, self.kind, self.name, self.text = file, line, kind, name, text

    def contract(self):
        return re.findall(r"^\s*(?:requires|ensures)\b.*$", self.text, re.M)

    def body(self):
        return self.text[self.text.find("\n{") if "\n{" in self.text else self.text.find("{"):]

    def parameters(self):
        head = re.sub(r"\s+", " ", self.text.split("requires")[0].split("ensures")[0].split("{")[0])
        inside = re.search(r"fn \w+(?:<[^(]*>)?\((.*)\)", head)
        parts = re.split(r",\s*(?![^\[<(]*[\]>)])", inside.group(1)) if inside else []
        return tuple(p.strip() for p in parts if p.strip() and "self" not in p.split(":")[0])


def items(files):
    for file, text in sorted(files.items()):
        lines = text.split("\n")
        for number, line in enumerate(lines):
            found = re.match(r"(\s*)(?:pub(?:\(crate\))? )?(?:extern \"C\" )?(fn|enum|struct|const|impl)\b\s*(?:<[^>]*>\s*)?(\w+)?", line)
            if not found:
                continue
            end = number
            if not line.rstrip().endswith(";") and not (found.group(2) == "const" and line.rstrip().endswith("];")):
                close = found.group(1) + ("]" if found.group(2) == "const" else "}")
                while end + 1 < len(lines) and not (lines[end].startswith(close) and end > number):
                    end += 1
            yield Item(file, number + 1, found.group(2), found.group(3) or "", "\n".join(lines[number:end + 1]))


def shape(enum):
    """An enum of the shape of Option or Result: a variant with one value beside one with none or one, and no third kind."""
    variants = re.findall(r"^\s{4}(\w+)(\([^)]*\))?,$", enum.text, re.M)
    return len(variants) in (2, 3) and any(n in ("Absent", "Nothing", "OutOfRange", "NoRoom", "Fine", "Refused", "Malformed", "Nowhere") for n, _ in variants) and any(p for _, p in variants)


def skeleton(item):
    """The text with what a type parameter or a constant could stand for taken out."""
    text = re.sub(r"//[^\n]*", "", item.body())
    text = re.sub(r"\b(u8|u16|u32|u64|usize)\b", "T", text)
    text = re.sub(r"\b0x[0-9A-Fa-f]+\b|\b\d+(?:T)?\b", "N", text)
    text = re.sub(r"\b[A-Z][A-Z0-9_]+\b", "N", text)
    names = {}
    return re.sub(r"\b[a-z_]\w*\b", lambda m: names.setdefault(m.group(0), f"v{len(names)}"), re.sub(r"\s+", " ", text))


def main():
    commit = sys.argv[1] if len(sys.argv) > 1 else None
    all_items = list(items(sources(commit)))
    functions = [i for i in all_items if i.kind == "fn"]
    found = []

    def place(point, item, what):
        found.append((point, item.file.replace("crates/", "").replace("/src", ""), item.line, f"{item.name}: {what}"))

    for i in all_items:
        if i.kind == "enum" and shape(i):
            place(1, i, "an enum of the shape of Option or Result")
        if i.kind == "const" and re.match(r"\s*(?:pub )?const \w+: u(8|16|32) = [\w:+* ]+;", i.text):
            place(1, i, "a number that stands for a kind, or a size")
    for i in functions:
        if re.search(r"\bu(?:8|16|32|64|size)::MAX\b", i.body()):
            place(1, i, "a number for 'none' or 'all'")
        if re.search(r"-> (?:io::Result<)?bool", i.text) and "rt" in i.text.split("{")[0]:
            place(1, i, "a flag for 'there was one'")
    twins = collections.defaultdict(list)
    for i in functions:
        if len(i.body()) > 40:
            twins[skeleton(i)].append(i)
    for group in twins.values():
        if len(group) > 1:
            place(2, group[0], "alike but for types, names and constants: " + ", ".join(f"{g.file.split('/')[1]}::{g.name}" for g in group))
    for i in functions:
        for m in re.finditer(r"\b(while|loop)\b[^\n]*|\bfor \w+ in [^\n{]*\.\.[^\n{]*", re.sub(r"//[^\n]*", lambda c: " " * len(c.group(0)), i.text)):
            place(3, i, m.group(0).strip(" {"))
        if re.match(r"(?:to_|as_|from_)?(?:of|number|bytes|status|reason|new|evex_of|flag_of|half_of|wide_\w+|\w+_index)$", i.name):
            place(4, i, "a conversion by hand")
    for i in all_items:
        if i.kind == "impl" and re.search(r"\b(?:PartialEq|Eq|Ord|Clone|Copy|Display|From|TryFrom)\b", i.text.split("{")[0]):
            place(4, i, i.text.split("{")[0].strip())
    facts = collections.defaultdict(set)
    for i in functions:
        for clause in i.contract():
            if clause.strip().startswith("requires"):
                for fact in re.split(r"\) × \(", clause.strip()[len("requires"):].strip(" {}")):
                    facts[re.sub(r"\.(now|old)", "", fact.strip("() "))].add((i.file, i.name))
    for fact, where in facts.items():
        if len(where) > 2:
            found.append((5, "", 0, f"'{fact}' in the contracts of " + ", ".join(sorted(n for _, n in where))))
    groups = collections.defaultdict(set)
    for i in functions:
        p = i.parameters()
        for a in range(len(p)):
            for b in range(a + 3, len(p) + 1):
                groups[tuple(sorted(p[a:b]))].add((i.file, i.name))
    seen = set()
    for group, where in sorted(groups.items(), key=lambda g: -len(g[0])):
        if len({f for f, _ in where}) == 1 and len(where) > 2 and not any(set(group) <= s for s in seen):
            seen.add(frozenset(group))
            found.append((5, sorted(where)[0][0].replace("crates/", "").replace("/src", ""), 0, "together: " + ", ".join(group) + " in " + ", ".join(sorted(n for _, n in where))))
    for i in functions:
        for m in re.finditer(r"(?:&(?:mut )?)?\w+\[(?:0|\w+)?\.\.[\w +]+\]", i.body()):
            place(6, i, "a buffer with a length or a place beside: " + m.group(0))
        p = dict(x.split(":")[0].strip().rsplit(" ", 1)[-1:] + [x.split(":")[-1].strip()] for x in i.parameters() if ":" in x)
        if any(t.startswith("&mut [u8") for t in p.values()) and "at" in p:
            place(6, i, "a text with a place in it beside")
    for i in functions:
        arms = re.findall(r"^\s*[\w:]+(?:\([^)]*\))? => (?:\w+::)*(\w+)\(([^()]*)\)[,?]", i.body(), re.M)
        calls = [a for a in arms if a[0] not in ("Ok", "Err", "Some")]
        if len(calls) > 3 and len({n for n, _ in calls}) > 3:
            place(7, i, "a switch on which step to run")
    counts = collections.Counter()
    for point, file, line, what in found:
        counts[point] += 1
        print(f"{point} {file}:{line} {what}" if line else f"{point} {file} {what}")
    print("counts:", ", ".join(f"point {p}: {counts[p]}" for p in range(1, 8)))


main()
