"""Every theorem that docs/THEOREMS.md names is a public name of the module that it names.

A table's head may have the folder of its modules. A name belongs to the modules before it, in its row or in the rows above;
a name that ends in … stands for all that begin so.
"""

import re
import sys
from pathlib import Path

HEAD = re.compile(r"\| In words \| Proof(?: \(`([^`]*)`\))? \|")


def named(text):
    """The pairs of module and name in the tables of `text`."""
    folder, modules, named_one = "", [], False
    for line in text.splitlines():
        head = HEAD.fullmatch(line)
        if head:
            folder, modules = head[1] or "", []
        elif line.startswith("| "):
            for word in re.findall(r"`([^`]+)`", line.rsplit(" | ", 1)[-1]):
                if "/" in word or word[0].isupper():
                    modules = [] if named_one else modules
                    modules = modules + [word if "/proofs/" in word else folder + word]
                    named_one = False
                else:
                    named_one = True
                    yield from ((module, word) for module in modules or ["no module"])


def missing(root):
    """What is named and is not there, a line for each, and the number of names that are there."""
    complaints, found = [], 0
    for module, name in named((root / "docs/THEOREMS.md").read_text()):
        path = root / "crates" / (module + ".antt")
        text = path.read_text() if path.exists() else ""
        end = "" if name.endswith("…") else " :"
        if re.search(r"^ *pub " + re.escape(name.removesuffix("…")) + end, text, re.MULTILINE):
            found += 1
        else:
            complaints.append(f"docs/THEOREMS.md names {name} of {module}, which has no such theorem")
    return complaints, found


def main():
    complaints, found = missing(Path(__file__).resolve().parent.parent)
    for complaint in complaints:
        print(complaint)
    print(f"{found} passed, {len(complaints)} failed")
    return 1 if complaints or not found else 0


if __name__ == "__main__":
    sys.exit(main())
