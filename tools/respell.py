#!/usr/bin/env python3
"""respell.py [--report]: gives the repository's own definitions and lemmas the spelling of today's Rattle, in snake case.

Run once, at the top, on what the toolchain's port.py left. Names of Rust items, of files, and of libraries stay as they are. In a function's folder
below proofs/ the goals and the steps keep the names that the toolchain made; only what the folder declares by itself is turned there.
--report writes nothing, and lists the names that would fall together.
"""

import collections
import glob
import re
import sys

NAME = r'[^\s(){}.;,@"«»\[\]]+'
TOKEN = re.compile(rf"(?<![^\s(){{}}.;,@\"«»\[\]])({NAME})")
USE = re.compile(r"\buse ([^\s;{]+)\.\{([^}]*)\}|\buse ([^\s;{]+) as (\S+)|\buse ([^\s;{]+)")
DECLARED = re.compile(rf"(?m)^\s*(?:(?:abbrev|unfoldable|pub|private|record|data|mutual)\s+)*({NAME})(?: [({{].*)? :(?= |$)")
GOAL = re.compile(rf"(?m)^(?:(?:abbrev|pub) )*({NAME}) : (?:tie|goal|Tie)\.")
# Lemmas that are spelled like a definition once that is turned, by their files: they make room as other lemmas do.
MET = {
    "crates/judge/proofs/Lists.antt": {"no_value"},
    "crates/issue/proofs/Again.antt": {"part_bytes", "written_as"},
    "crates/issue/proofs/Laws.antt": {"written_as"},
    "crates/issue/proofs/Versions.antt": {"written_as"},
}


def crates():
    with open("crates.txt", encoding="utf-8") as f:
        return [m[1] for m in (re.match(r"([a-z0-9_]+):", line) for line in f) if m]


def snake(name):
    words = re.sub(r"(?<=[a-z0-9])([A-Z])", lambda m: "_" + m[1].lower(), name)
    return words.replace("-", "_")


def turns(name):
    return bool(re.fullmatch(r"[a-z][\w'-]*", name)) and ("-" in name or re.search(r"[a-z0-9][A-Z]", name)) and not name.startswith("--")


def is_folder(path):
    """Is this a file of a function's own folder?"""
    return "/proofs/" in path and path.split("/proofs/")[1].count("/") >= 1


def foreign(text, own):
    """The names that a file takes from libraries."""
    names = set()
    for m in USE.finditer(text):
        path = m[1] or m[3] or m[5]
        steps = path.split(".")
        if steps[0] == "Rattle" and len(steps) > 1 and steps[1] in own:
            continue
        names.update(x.strip().split(" as ")[0].strip() for x in (m[2] or "").split(","))
    return names


def goals(text):
    return set(GOAL.findall(text)) | set(re.findall(rf"(?m)^pub ({NAME}-spec) :", text))


def main(argv):
    own = crates()
    files = {}
    for crate in own:
        for p in sorted(glob.glob(f"crates/{crate}/**/*", recursive=True)):
            if re.search(r"/(specs|proofs)/.*\.antt$|/src/.*\.rt$", p) and "/out/" not in p:
                with open(p, encoding="utf-8") as f:
                    files[p] = f.read()
    declared = collections.defaultdict(set)
    for p, t in files.items():
        if p.endswith(".antt"):
            code = re.sub(r"--[^\n]*", "", t)
            skip = goals(code) if is_folder(p) else set()
            for name in DECLARED.findall(code):
                if turns(name) and name not in skip:
                    declared[name].add(p)
    functions = {f for p, t in files.items() if p.endswith(".rt") for f in re.findall(r"\bfn (\w+)", t)}
    taken = functions | {snake(n) for n in declared if "-" not in n}
    taken |= {n for p, t in files.items() if p.endswith(".antt") and "/specs/" in p for n in DECLARED.findall(t) if "-" not in n}

    def respelled(name):
        """A definition keeps its words; a lemma that would have a definition's or a function's name gets an ending."""
        new = snake(name)
        return new + "_lem" if "-" in name and new in taken else new

    everywhere = {n for n, where in declared.items() if any(not is_folder(p) for p in where)}
    report = "--report" in argv
    if report:
        by_new = collections.defaultdict(set)
        for n in declared:
            by_new[respelled(n)].add(n)
        for new, olds in sorted(by_new.items()):
            if len(olds) > 1:
                print("together:", new, sorted(olds), sorted({p for o in olds for p in declared[o]})[:6])
        print(len(declared), "names;", len(everywhere), "of them outside functions' folders")
    for p, t in files.items():
        own_here = {n for n in declared if p in declared[n]}
        take = (everywhere | own_here) - foreign(t, own)
        if is_folder(p):
            take -= goals(t)
        folder = is_folder(p)

        def turn(m):
            name = m[1]
            if name in MET.get(p, ()):
                return name + "_lem"
            if name not in take:
                return name
            dotted = m.start() > 0 and m.string[m.start() - 1] == "."
            if folder and dotted and "-" in name:
                # a step or a goal of the toolchain's, but for a name behind a module of our own
                before = re.search(rf"({NAME}(?:\.{NAME})*)\.$", m.string[: m.start()])
                if not before or not re.match(r"Rattle\.", before[1]):
                    return name
            return respelled(name)

        out = []
        for line in t.split("\n"):
            code, mark, comment = line.partition("//" if p.endswith(".rt") else "--")
            # (a line of code that has the mark inside a name stays whole)
            if mark and code and not code[-1].isspace():
                code, mark, comment = line, "", ""
            code = TOKEN.sub(turn, code)
            comment = re.sub(r"`([^`]*)`", lambda m: "`" + TOKEN.sub(turn, m[1]) + "`", comment)
            comment = TOKEN.sub(lambda m: turn(m) if "-" not in m[1] else m[1], comment)
            out.append(code + mark + comment)
        new = "\n".join(out)
        if report:
            before = {m[1] for m in TOKEN.finditer(re.sub(r"(--|//)[^\n]*", "", t))}
            for n in sorted(take & before):
                s = respelled(n)
                if s in before:
                    print("meets:", p, n, "->", s)
        elif new != t:
            with open(p, "w", encoding="utf-8") as f:
                f.write(new)
    return 0


if __name__ == "__main__":
    raise SystemExit(main(sys.argv[1:]))
