#!/usr/bin/env python3
"""Prints, for each crate, lines of code, of definitions, of laws and proofs, and of answers, its must-fail edits, and what rt ci said of it.

    rt ci | tee LOG; python3 tools/ledger.py [LOG]

Lines that are blank or only a comment do not count. Laws and proofs are the files of proofs/ that a person writes whole, lemmas and walks by
hand; answers are Invariants.antt and Answers.antt, which say of a function only what the prover does not find. The last two columns are
of rt ci's log: how many functions the crate's last line counts as proved, and whether that was in this run or is kept from an earlier one.
rt ci prints no times, so none are here.
"""
import pathlib
import re
import sys

ROOT = pathlib.Path(__file__).resolve().parent.parent
ANSWERS = ("Invariants.antt", "Answers.antt")
PARTS = [
    ("src", "*.rt", lambda name: True),
    ("specs", "*.antt", lambda name: True),
    ("proofs", "*.antt", lambda name: name not in ANSWERS),
    ("proofs", "*.antt", lambda name: name in ANSWERS),
]


def count(folder, pattern, wanted):
    lines = 0
    for path in folder.rglob(pattern):
        if wanted(path.name):
            told = [line.strip() for line in path.read_text().split("\n")]
            lines += sum(bool(t) and not t.startswith(("--", "//")) for t in told)
    return lines


def said(log):
    """What rt ci said of each crate: how many functions are proved, if the run proved it, and whether it is proved."""
    functions = {}
    for crate, text in re.findall(r"^== (\w+)$(.*?)^rt: \1 (?:NOT )?(?:proved|PROVED)", log, re.M | re.S):
        found = re.findall(r"^logic=proved functions=(\d+)", text, re.M)
        functions[crate] = found[-1] if found else ""
    how = {crate: "not proved" for crate in re.findall(r"^rt: (\w+) NOT PROVED", log, re.M)}
    how |= {crate: "proved" for crate in re.findall(r"^rt: (\w+) proved$", log, re.M)}
    how |= {crate: "kept" for crate in re.findall(r"^rt: (\w+) is kept: ", log, re.M)}
    return functions, how


def main():
    log = pathlib.Path(sys.argv[1]).read_text() if len(sys.argv) > 1 else ""
    functions, how = said(log)
    print("| crate | code | definitions | laws and proofs | answers | edits | functions | rt ci |")
    print("|---|---|---|---|---|---|---|---|")
    total = [0] * (len(PARTS) + 1)
    for line in (ROOT / "crates.txt").read_text().split("\n"):
        words = line.split("#")[0].split(":")[0].split()
        if not words:
            continue
        crate = ROOT / "crates" / words[0]
        numbers = [count(crate / part, pattern, wanted) for part, pattern, wanted in PARTS]
        numbers.append(len(list((crate / "must-fail").glob("*.edit"))))
        total = [a + b for a, b in zip(total, numbers)]
        print(f"| {words[0]} | {' | '.join(map(str, numbers))} | {functions.get(words[0], '')} | {how.get(words[0], '')} |")
    print(f"| all | {' | '.join(map(str, total))} | {sum(int(n) for n in functions.values() if n) or ''} | |")


if __name__ == "__main__":
    main()
