#!/usr/bin/env python3
"""Brings the repository's own definitions and lemmas to snake case. Usage: tools/respell.py, once, at the top, after port.py.

A name that specs/ or proofs/ declare and that has a dash in it, or a capital behind a small first letter, is respelled: classOf
becomes class_of, apart-self becomes apart_self. Types and modules keep their names, and so do functions of src/, and what is
imported from outside the repository. Where two names would fall together, the one of proofs/ gets _lem behind it; TOGETHER has
those that may, since no file has both. The names are turned in specs/, proofs/, src/, the edits, and, where they stand between
backticks, in README.md and docs/. Prints the names that got _lem.
"""
import collections
import pathlib
import re
import sys

ROOT = pathlib.Path(__file__).resolve().parent.parent
WORD = r"[A-Za-z_][A-Za-z0-9_'₀₁₂₃₄₅₆₇₈₉-]*"
TOKEN = re.compile(r"(?<![\w'-])" + WORD + r"(?![\w'-])")
HEAD = re.compile(r"^\s*(?:(?:abbrev|unfoldable|pub|record|data)\s+)*(" + WORD + r")(?=\s|$)")
OWN = re.compile(r"^Rattle\.(lattice|passes|codec|levels|card|second|examples|varmintfoil)\.")
USE = re.compile(r"^\s*(?:pub )?(?:ghost )?use ([\w.·'+-]+?)(?:\.\{([^}]*)\}| as ([\w'-]+))?;?\s*$", re.M)
TOGETHER = {"testFinds", "test-finds", "windowClasses", "window-classes", "windowNumbers", "window-numbers", "noCell", "noFeed", "no-feed"}
WORDS_OF_CODE = {"where", "let", "in", "use", "unfolding", "module", "mod", "elim", "syntax", "open", "ruleset"}


def antt_files(*folders):
    for crate in sorted((ROOT / "crates").iterdir()):
        for folder in folders:
            yield from sorted((crate / folder).rglob("*.antt"))


def rt_files():
    for crate in sorted((ROOT / "crates").iterdir()):
        yield from sorted((crate / "src").rglob("*.rt"))


def declared(path):
    """The names that a file declares: what stands at the head of a line before a colon, on that line or below it."""
    names = set()
    lines = path.read_text(encoding="utf-8").split("\n")
    for i, line in enumerate(lines):
        if line.lstrip().startswith("--"):
            continue
        head = HEAD.match(line)
        if not head or head.group(1) in WORDS_OF_CODE:
            continue
        rest = line[head.end():]
        if re.match(r"\s*(?:[({].*)?:(?=\s|$)", rest) or (not rest.strip() and i + 1 < len(lines) and re.match(r"\s+:(?=\s|$)", lines[i + 1])):
            if "tie." in line:
                continue
            names.add(head.group(1))
        elif re.match(r"\s*[({]", rest) and " : " in rest:
            names.add(head.group(1))
    return names


def wanted(name):
    return bool(re.match(r"[a-z]", name)) and ("-" in name or re.search(r"[A-Z]", name) is not None)


def snake(name):
    return re.sub(r"(?<=[a-z0-9])([A-Z])", lambda m: "_" + m.group(1), name).replace("-", "_").lower()


def outside(text):
    """The names that a file imports from outside the repository."""
    names = set()
    for m in USE.finditer(text):
        if not OWN.match(m.group(1)) and m.group(2):
            for part in re.split(r"[,\s]+", m.group(2)):
                names.add(part)
    return names


def new_names():
    """The new names; the names that specs/ take from proofs/, by file; and what would have fallen together."""
    specs, proofs, kept, of_specs = set(), set(), {}, set()
    for path in antt_files("specs"):
        for name in declared(path):
            if wanted(name):
                specs.add(name)
            else:
                of_specs.add(name)
    for path in antt_files("proofs"):
        for name in declared(path):
            if wanted(name):
                proofs.add(name)
            else:
                kept.setdefault(name, set()).add(path)
    imported = set()
    for path in list(antt_files("specs", "proofs")) + list(rt_files()):
        imported |= outside(path.read_text(encoding="utf-8"))
    taken = of_specs | imported
    new, moved, fell = {}, {}, {}
    for names in (specs, proofs - specs):
        for name in sorted(names, key=lambda n: ("-" in n, n)):
            to = snake(name)
            if name in TOGETHER:
                new[name] = to
                continue
            if to in kept and to not in taken and names is specs:
                moved[to] = to + "_lem"
            elif to in taken or to in kept:
                fell[name] = to
                to += "_lem"
                while to in taken or to in kept:
                    to += "_too"
            taken.add(to)
            new[name] = to
    fell.update({name: name for name in moved})
    files = {}
    for name, to in moved.items():
        modules = {"Rattle." + ".".join(path.relative_to(ROOT / "crates").with_suffix("").parts) for path in kept[name]}
        for path in antt_files("proofs"):
            text = path.read_text(encoding="utf-8")
            imports = any(m.group(1) in modules and re.search(rf"(?<![\w'-]){name}(?![\w'-])", m.group(2) or "") for m in USE.finditer(text))
            if path in kept[name] or imports:
                files.setdefault(path, {})[name] = to
    return new, files, {**fell}, moved


def turn(text, new, kept=frozenset()):
    def one(m):
        word = m.group(0)
        return new[word] if word in new and word not in kept else word
    return TOKEN.sub(one, text)


def turn_lines(text, new, comment):
    """Turns the lines of a file; in a comment only what stands between backticks."""
    kept = outside(text)
    lines = []
    for line in text.split("\n"):
        at = line.find(comment)
        if at == 0 or (at > 0 and not line[:at].strip()):
            line = re.sub(r"`[^`]*`", lambda m: turn(m.group(0), new, kept), line)
        else:
            line = turn(line, new, kept)
        lines.append(line)
    return "\n".join(lines)


def main():
    new, files, fell, moved = new_names()
    for path in antt_files("specs", "proofs"):
        text = path.read_text(encoding="utf-8")
        for name, to in files.get(path, {}).items():
            text = re.sub(rf"(?<![\w'.-]){name}(?![\w'.-])", to, text)
        both = collections.defaultdict(set)
        for word in set(TOKEN.findall(text)) & TOGETHER:
            both[new[word]].add(word)
        if any(len(words) > 1 for words in both.values()):
            sys.exit(f"{path}: {dict(both)}")
        path.write_text(turn_lines(text, new, "--"), encoding="utf-8")
    for path in rt_files():
        path.write_text(turn_lines(path.read_text(encoding="utf-8"), new, "//"), encoding="utf-8")
    for path in sorted((ROOT / "crates").glob("*/*/*.edit")):
        lines = path.read_text(encoding="utf-8").split("\n")
        lines = [turn(line, new) if re.match(r"(old|new):", line) else line for line in lines]
        path.write_text("\n".join(lines), encoding="utf-8")
    for path in [ROOT / "README.md"] + sorted((ROOT / "docs").rglob("*.md")):
        text = path.read_text(encoding="utf-8")
        path.write_text(re.sub(r"`[^`\n]*`", lambda m: turn(m.group(0), new), text), encoding="utf-8")
    print(f"respell: {len(new)} names")
    for name, to in sorted(fell.items()):
        print(f"respell: {name}: {to} is taken, so {new.get(name) or moved[name]}")


if __name__ == "__main__":
    main()
