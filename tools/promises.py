#!/usr/bin/env python3
"""Checks docs/PROMISES.md: a theorem is named as `name` (`path`), and the file at that path must declare it; each other path must be there."""
import pathlib
import re
import sys

ROOT = pathlib.Path(__file__).resolve().parent.parent


def main():
    page = (ROOT / "docs/PROMISES.md").read_text()
    named = re.findall(r"`([^`\s]+)`\s+\(`(crates/[^`]+)`\)", page)
    wrong = []
    for name, path in named:
        file = ROOT / path
        declared = file.is_file() and re.search(rf"^\s*(?:unfoldable |abbrev )?pub (?:(?:extern \"C\" )?fn |record |data )?{re.escape(name)}[ (:<]", file.read_text(), re.M)
        # a trait's function is public without the word
        trait_fn = rf"^impl .* for .*\{{\n(?:    .*\n|\n)*?    fn {re.escape(name)}\("
        declared = declared or (file.suffix == ".rt" and re.search(trait_fn, file.read_text(), re.M))
        if not declared:
            wrong.append(f"{name} is not declared in {path}")
    paths = set(re.findall(r"`((?:crates|docs|examples|second|tools)/[^`\s*]+)`", page))
    wrong += [f"{path} is not there" for path in sorted(paths) if not (ROOT / path).exists()]
    for line in wrong:
        print(line)
    print(f"docs/PROMISES.md names {len(named)} theorems and definitions and {len(paths)} files, {len(wrong)} of them missing")
    return 1 if wrong or not named else 0


if __name__ == "__main__":
    sys.exit(main())
