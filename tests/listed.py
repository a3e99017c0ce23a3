"""Every folder under crates/ is listed in crates.txt, and every crate listed there has its folder.

rt proves what is listed and no more, so a crate that is left out would not be missed.
"""

import sys
from pathlib import Path


def disagreements(root):
    """What crates/ and crates.txt under `root` disagree in, a line for each, and the number of crates that they agree in."""
    listed = set()
    for line in (root / "crates.txt").read_text().splitlines():
        name, colon, _ = line.partition("#")[0].partition(":")
        if colon:
            listed.add(name.split()[0])  # behind the name may stand a word on its kind, as staticlib
    there = {path.name for path in (root / "crates").iterdir() if path.is_dir()}
    complaints = [f"crates/{name} is not listed in crates.txt" for name in sorted(there - listed)]
    complaints += [f"crates.txt lists {name}, and there is no crates/{name}" for name in sorted(listed - there)]
    return complaints, len(there & listed)


def main():
    complaints, agreed = disagreements(Path(__file__).resolve().parent.parent)
    for complaint in complaints:
        print(complaint)
    print(f"{agreed} passed, {len(complaints)} failed")
    return 1 if complaints else 0


if __name__ == "__main__":
    sys.exit(main())
