#!/usr/bin/env python3
"""Brings the definitions and lemmas of every crate to snake case: capitals inside a name and dashes become underscores.

usage: python3 tools/spell.py [--check]      at the top of the repository

Turned are the names that specs/ and the modules of laws in proofs/ declare, and the proofs of functions, NAME-spec. Types and modules keep their
capitals, goals the names that Rattle gives them. Names turn in specs/ and proofs/, in the clauses and the 'ghost use' items of src/, in the lines of
must-fail edits of such files, and in the code spans of comments and documents. The script stops, with nothing written, where two names would fall
together, or where a file has the new name already.
"""

import re
import sys
from pathlib import Path

# Names that would fall together: a lemma beside a definition of its name ends in _lem, a question beside the definition that answers it begins with ask_.
LEMMAS = ("body-value", "fixed-end", "null-bit", "same-range", "text-end", "vector-end")
OF_A_CRATE = {
    "cases": {name: "ask_" + name.replace("-", "_") for name in ("read_u64", "write-u64", "write_cell", "write-reference")},
    "utf8": {name: name + "_lem" for name in ("same_row", "same_left")},
}

# A name as antt cuts it.
WORD = r"[^\s(){}.;,@\"«»`]+"
DECLARED = re.compile(rf"^ *(?:(?:abbrev|pub|unfoldable|pattern) +)*({WORD})(?: \{{[^{{}}]*\}})* :(?!:)", re.M)
RULESET = re.compile(rf"^ *(?:pub +)?ruleset +({WORD}) =", re.M)
PROOF = re.compile(rf"^pub ({WORD}-spec) :", re.M)
SPAN = re.compile(r"`[^`\n]+`")
GHOST_USE = re.compile(r"ghost\s+use\b[^;]*;")
CLAUSE = re.compile(r"(?:requires|ensures)\s*(?:\w+\s*)?\{|ghost\s+\w+\s*[:=]\s*\{")


def snake(name):
    """The name in snake case: 'readU64' is 'read_u64', 'le-drop' is 'le_drop'."""
    name = re.sub(r"(?<=[a-z0-9])(?=[A-Z])", "_", name)
    return name.lower().replace("-", "_")


def is_type(name):
    return re.fullmatch(r"[A-Z][A-Za-z0-9]*'*", name) is not None


def is_word(name):
    """A name of letters, digits, dashes and underscores, with a letter at its head."""
    return re.fullmatch(r"[A-Za-z][A-Za-z0-9_'-]*", name) is not None


def laws(root):
    """The files whose names are the repository's own: definitions, and modules of laws that lie beside the functions' folders."""
    for path in sorted(root.glob("crates/*/specs/**/*.antt")):
        yield path
    for path in sorted(root.glob("crates/*/proofs/**/*.antt")):
        if path.name not in ("Proof.antt", "Answers.antt", "Invariants.antt"):
            yield path


def table(root):
    """Each name that turns, with its new spelling."""
    old = set()
    for path in laws(root):
        text = path.read_text()
        old.update(DECLARED.findall(text))
        old.update(RULESET.findall(text))
    for path in sorted(root.glob("crates/*/proofs/**/Proof.antt")):
        old.update(PROOF.findall(path.read_text()))
    names = {name: snake(name) for name in old if is_word(name) and not is_type(name) and snake(name) != name}
    return names | {name: snake(name) + "_lem" for name in LEMMAS if name in names}


def turn_words(text, names):
    return re.sub(WORD, lambda m: names.get(m[0], m[0]), text)


def turn_spans(text, names):
    return SPAN.sub(lambda m: turn_words(m[0], names), text)


def turn_antt(text, names):
    """Code as a whole, comments in their code spans."""
    lines = []
    for line in text.split("\n"):
        code, dash, comment = re.fullmatch(r"((?:(?!--\s).)*?)(?:(--\s)(.*))?", line).groups()
        lines.append(turn_words(code, names) + (dash or "") + turn_spans(comment or "", names))
    return "\n".join(lines)


def clauses(text):
    """The places in Rattle code that are antt's: what 'ghost use' items and clauses hold."""
    for found in GHOST_USE.finditer(text):
        yield found.start(), found.end()
    for found in CLAUSE.finditer(text):
        depth, at = 1, found.end()
        while depth:
            depth += {"{": 1, "}": -1}.get(text[at], 0)
            at += 1
        yield found.end(), at


def turn_rt(text, names):
    out, done = [], 0
    for start, end in sorted(clauses(text)):
        out += [turn_spans(text[done:start], names), turn_words(text[start:end], names)]
        done = end
    return "".join(out) + turn_spans(text[done:], names)


def turn_edit(text, names):
    """The lines of an edit that are about a file of definitions or proofs, or about a clause."""
    lines, file = [], ""
    for line in text.split("\n"):
        if line.startswith("file: "):
            file = line
        if line.startswith(("old: ", "new: ")) and file.endswith(".antt"):
            line = line[:5] + turn_words(line[5:], names)
        lines.append(line)
    return "\n".join(lines)


def main(args):
    root = Path(__file__).resolve().parent.parent
    names = table(root)
    complaints, new = [], {}
    for old, spelled in sorted(names.items()):
        if spelled in new and not any(old in own or new[spelled] in own for own in OF_A_CRATE.values()):
            complaints.append(f"{old} and {new[spelled]} fall together as {spelled}")
        new[spelled] = old

    turns = [("crates/*/specs/**/*.antt", turn_antt), ("crates/*/proofs/**/*.antt", turn_antt), ("crates/*/src/**/*.rt", turn_rt)]
    turns += [("crates/*/must-fail/*.edit", turn_edit), ("docs/*.md", turn_spans), ("README.md", turn_spans), ("rust/*.md", turn_spans)]
    written = []
    for places, turn in turns:
        for path in sorted(root.glob(places)):
            text = path.read_text()
            parts = path.relative_to(root).parts
            here = names | (OF_A_CRATE.get(parts[1], {}) if path.suffix == ".antt" else {})
            turned = turn(text, here)
            spelled = set(re.findall(WORD, turned))
            if path.suffix == ".antt":
                # Modules have their functions' names: a name beside a dot is none of a definition.
                there = set(re.findall(rf"(?<![.\w]){WORD}(?!\.)", text)) - set(here)
            else:
                there = set(re.findall(r"\b(?:let (?:mut )?)?(\w+)(?:: | = )", text))
            for name in sorted(there & spelled & {here[old] for old in here if old in re.findall(WORD, text)}):
                complaints.append(f"{path.relative_to(root)}: {name} is there already")
            if turned != text:
                written.append((path, turned))

    for line in complaints:
        print(line)
    print(f"{len(names)} names, {len(written)} files, {len(complaints)} complaints")
    if complaints:
        return 1
    if "--check" not in args:
        for path, text in written:
            path.write_text(text)
    return 0


if __name__ == "__main__":
    sys.exit(main(sys.argv[1:]))
