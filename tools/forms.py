#!/usr/bin/env python3
"""Counts the places of older forms in crates/*/src, for docs/DESIGN-PASS.md.

usage: python3 tools/forms.py [--list] [COMMIT]      at the top of the repository; by default HEAD

A place is a line that a pattern finds; --list shows each. The patterns of points 1, 2 and 4 to 7 name what stood there when the pass began, so that the
same command finds what is left of it; those of point 3 and of a fact in many contracts find new places too.
"""

import collections
import re
import subprocess
import sys

PATTERNS = [
    ("1a", "own enums with a case that refuses", r"^\s+Refused\(u8\),"),
    ("1b", "words that are a place or a refusal", r"NO_PLACE|(?<![a-z_.])refusal\(|inner::refusal\(|(?<![a-z_.])number\((?:end|row\.end|local\.end|words\.[a-z]+)\)|refused\(\d+\)|no_key\(\d+\)|no_reference\("),
    ("1c", "values whose 0, 11 or 256 says that there is none", r"taken (?:==|!=) 0|10 < \w+\.taken|(?:place|refusal) != 0|\bn == 0\b|== NO_DIGIT|return 256|-> Scanned|\breturn 0;$|\b1[56];$|return (?:25|27);$"),
    ("1d", "constants that number kinds", r"^(?:pub )?const [A-Z0-9_]+: u8 ="),
    ("1e", "a flag lent beside a value", r"sound: &mut bool|mut sound = true"),
    ("2a", "a call for each of two types", r"fn (?:read|write|put)_(?:u64|i64|u32)\(|fn (?:u64|i64)_len\(|fn u(?:32|64)_at\("),
    ("2b", "a call for each kind or size", r"fn (?:text_end|vector_end|plain8?|four_words|reference_from|as_local|as_reference|no_key|no_reference|refused)\(|fn (?:one|two|three|four|five)_agrees?\(|fn (?:write|read)_(?:signed|to_\w+)\(|^\s+\w+::Refused\(number\) => number as u32"),
    ("3a", "a loop by `while`", r"^\s*(?:'\w+: )?while "),
    ("3b", "a loop over a range", r"^\s*for \w+ in [^.]*\.\."),
    ("4", "conversion, copying or printing by hand", r"fn (?:pattern|of_pattern|wide|copy_all|put_byte|reaches|bool_byte|null_bit|digit|pair|four|signed|number|text|byte|byte_at|on|grown)\(|std::num::wrapping_"),
    ("5", "parameters that travel together", r"kinds: &\[u8\], words: &\[u8\], data: &\[u8\]|text: &\[u8\], line: usize|body: &\[u8\], (?:columns|map)|body: &\[u8\], at: usize, shift"),
    ("6", "a buffer with a length beside it, parallel arrays", r"= \[0u8; (?:ROOM|FILE_ROOM)\]|= \[0u64; |\[\.\.[a-z]\]|agree: &(?:mut )?\[u64"),
    ("7", "a switch on which step to run", r"match (?:call|layer) |is_signed"),
]


def git(*words):
    return subprocess.run(["git", *words], capture_output=True, text=True, check=True).stdout


def sources(commit):
    """Each source file of the commit, with its lines."""
    names = git("ls-tree", "-r", "--name-only", commit, "crates").split()
    for name in names:
        if "/src/" in name and name.endswith(".rt"):
            yield name.removeprefix("crates/"), git("show", f"{commit}:{name}").splitlines()


def clauses(files):
    """Clauses that stand word for word in three or more contracts."""
    found = collections.Counter()
    for _, lines in files:
        for line in lines:
            clause = re.match(r"\s+requires \w* ?\{(.*)\}$", line)
            if clause:
                found[clause[1].strip()] += 1
    return {clause: count for clause, count in found.items() if count >= 3}


def main(words):
    showing = "--list" in words
    rest = [word for word in words if word != "--list"]
    commit = rest[0] if rest else "HEAD"
    files = list(sources(commit))
    for point, title, pattern in PATTERNS:
        places = [(name, number, line.strip()) for name, lines in files for number, line in enumerate(lines, 1) if re.search(pattern, line) and not line.strip().startswith("//")]
        by_crate = collections.Counter(name.split("/")[0] for name, _, _ in places)
        print(f"{point:<3} {len(places):>4}  {title}: " + ", ".join(f"{crate} {count}" for crate, count in sorted(by_crate.items())))
        if showing:
            for name, number, line in places:
                print(f"        {name}:{number}: {line}")
    repeated = clauses(files)
    print(f"5c  {sum(repeated.values()):>4}  a `requires` that stands in three or more contracts: {len(repeated)} clauses")
    if showing:
        for clause, count in sorted(repeated.items()):
            print(f"        {count}  {clause}")


if __name__ == "__main__":
    main(sys.argv[1:])
