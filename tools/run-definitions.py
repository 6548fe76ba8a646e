#!/usr/bin/env python3
"""Runs the definitions of specs/ on the stored cases of the second program, by the prover.

    python3 tools/run-definitions.py [--every N]

Each case becomes an equation between two closed terms that antt computes. Of each kind of crates/cases every
N-th case is taken (default 1: all), but for the long ones at the size limits, which the last line counts. The crates json_text and
jer are copied without their laws to a temporary folder, and the equations are checked beside them.
"""
import argparse
import pathlib
import re
import shutil
import subprocess
import sys
import tempfile

ROOT = pathlib.Path(__file__).resolve().parent.parent
CRATES = ["json_text", "jer"]
PER_FILE = 40
# At 30,008 digits (read case 1022) antt runs out of the memory that one declaration may use.
LONGEST_LINE = 30000
# file, lines of input a case, the function of Runs and what each line is
KINDS = {
    "table": (2, "run_table", ["numbers", "bytes"]),
    "text": (1, "run_text", ["bytes"]),
    "read": (5, "run_read", ["numbers", "bytes", "bytes", "number", "number"]),
    "write": (5, "run_write", ["numbers", "bytes", "numbers", "bytes", "number"]),
    "jerread": (1, "jerread", ["bytes"]),
    "jerwrite": (1, "jerwrite", ["bytes"]),
}
RUNS = """
unfoldable pub line_of : Values → List ℕ
line_of v = 1 ∷ v.number ∷ v.first ∷ v.second ∷ []

unfoldable pub of_judged : Judged → List ℕ
of_judged (Ok u) = 0 ∷ []
of_judged (Err e) = line_of (values_of e)

unfoldable pub of_reading : Table → Res Val → Reading → List ℕ
of_reading t (no f) x = line_of (values_of f)
of_reading t (ok v) (Err e) = line_of (values_of e)
of_reading t (ok v) (Ok c) = 0 ∷ (row_numbers t v ++ pool_of v)

unfoldable pub of_writing : Res (List ℕ) → Writing → List ℕ
of_writing (no f) x = line_of (values_of f)
of_writing (ok s) (Err e) = line_of (values_of e)
of_writing (ok s) (Ok n) = 0 ∷ s

unfoldable pub run_table : List ℕ → List ℕ → List ℕ
run_table rows names = of_judged (table_judged (record { rows = rows; names = names }))

unfoldable pub run_text : List ℕ → List ℕ
run_text s = of_judged (text_judged s)

unfoldable pub read_in : Table → List ℕ → ℕ → ℕ → List ℕ
read_in t s n m = of_reading t (read_text t s) (read_answer t n m (read_text t s))

unfoldable pub run_read : List ℕ → List ℕ → List ℕ → ℕ → ℕ → List ℕ
run_read rows names s n m = read_in (record { rows = rows; names = names }) s n m

unfoldable pub run_write : List ℕ → List ℕ → List ℕ → List ℕ → ℕ → List ℕ
run_write rows names ns pool room =
    of_writing (write_text (record { rows = rows; names = names }) ns pool) (write_answer room (write_text (record { rows = rows; names = names }) ns pool))
"""
RUNS_NAMES = ["line_of", "of_judged", "of_reading", "of_writing", "run_table", "run_text", "read_in", "run_read", "run_write"]


def definitions(path):
    """The names that a file of specs/ declares unfoldable, also in mutual blocks."""
    names, in_block = [], False
    for line in path.read_text().split("\n"):
        if line.startswith("unfoldable mutual"):
            in_block = True
        elif line and not line.startswith(" ") and not line.startswith("--"):
            in_block = False
        found = re.match(r"unfoldable pub (\S+) :", line) or (in_block and re.match(r"  pub (\S+) :", line))
        if found:
            names.append(found.group(1))
    return names


def header():
    lines, unfold = [], []
    for crate in CRATES:
        for path in sorted((ROOT / "crates" / crate / "specs").glob("*.antt")):
            names = [] if path.stem in ("Lib", "Samples") else definitions(path)
            if names:
                lines.append(f"use Rattle.{crate}.specs.{path.stem}.{{{', '.join(names)}}}")
                unfold += names
    return lines, unfold


def as_list(numbers):
    return "(" + " ∷ ".join([str(n) for n in numbers] + ["[]"]) + ")"


def cut(text, digits):
    return [int(text[i:i + digits], 16) for i in range(0, len(text), digits)]


def argument(kind, text):
    if kind == "number":
        return str(int(text, 16))
    return as_list(cut(text, 8 if kind == "numbers" else 2))


def answers(name, lines, count):
    """The expected list of each case, from the first of the stored answers, and how many lines these are."""
    at, result = 0, []
    for _ in range(count):
        line = lines[at]
        if name in ("table", "text"):
            words = line.split()
            result.append([0] if words[0] == "OK" else [1] + [int(w, 16) for w in words[1:]] + [0])
            at += 1
        elif line.startswith("FFFFFFFF") and len(line) == 32:
            result.append([1] + cut(line, 8)[1:])
            at += 1
        elif name == "write":
            result.append([0] + cut(line, 2))
            at += 1
        else:
            rows = []
            while True:  # the first row's size says how many rows there are
                rows += cut(lines[at], 8)
                at += 1
                if len(rows) == 4 * rows[3]:
                    break
            result.append([0] + rows + cut(lines[at], 2))
            at += 1
    return result, at


def printed(name, lines, count):
    """What the program prints for each case, as bytes, and how many lines these are."""
    at, result = 0, []
    for _ in range(count):
        start = at
        line = lines[at]
        at += 1
        if name == "jerread" and not line.startswith("FFFFFFFF"):
            at += int(line[24:32], 16)
        result.append(list(("\n".join(lines[start:at]) + "\n").encode()))
    return result, at


def cases(every):
    given = (ROOT / "crates/cases/stdin").read_text().split("\n")[:-1]
    out = (ROOT / "crates/cases/stdout").read_text().split("\n")[:-1]
    for name, (lines_each, function, kinds) in KINDS.items():
        count = cut(given.pop(0), 8)[1]
        expected, used = (printed if name.startswith("jer") else answers)(name, out, count)
        out = out[used:]
        for i in range(0, count, every):
            lines = given[i * lines_each:(i + 1) * lines_each]
            if max(map(len, lines)) > LONGEST_LINE:
                yield None
                continue
            words = [argument(k, w) for k, w in zip(kinds, lines)]
            yield f"{name} case {i + 1}", f"{function} {' '.join(words)}", as_list(expected[i])
        given = given[count * lines_each:]


PRELUDE = "use Rattle.std.specs.Prelude.{ℕ, ◌≡◌, refl, List, [], ◌∷◌, ◌++◌}\n"


def write_modules(specs, chosen):
    uses, unfold = header()
    extra = ["use Rattle.std.specs.Prelude.{Ok, Err}", "use Rattle.jer.specs.Answer.{Judged, Reading, Writing}"]
    types = ["use Rattle.jer.specs.Table.{Table}", "use Rattle.jer.specs.Value.{Val}", "use Rattle.jer.specs.Answer.{Res, ok, no, Values, values_of}"]
    runs = "\n".join(uses)
    (specs / "Runs.antt").write_text(PRELUDE + runs + "\n" + "\n".join(extra + types) + "\n" + RUNS)
    modules = ["Runs"]
    for n, i in enumerate(range(0, len(chosen), PER_FILE)):
        body = PRELUDE + runs + "\nuse Rattle.jer.specs.Runs.{" + ", ".join(RUNS_NAMES) + "}\n"
        for j, (label, left, right) in enumerate(chosen[i:i + PER_FILE]):
            body += f"\n-- {label}\ncase{j} : {left} ≡ {right}\nunfolding {' '.join(unfold + RUNS_NAMES)}\ncase{j} = refl\n"
        (specs / f"Cases{n}.antt").write_text(body)
        modules.append(f"Cases{n}")
    with (specs / "Lib.antt").open("a") as lib:
        lib.write("".join(f"pub mod {m}\n" for m in modules))


def main():
    parser = argparse.ArgumentParser()
    parser.add_argument("--every", type=int, default=1)
    options = parser.parse_args()
    taken = list(cases(options.every))
    chosen = [case for case in taken if case]
    with tempfile.TemporaryDirectory() as there:
        top = pathlib.Path(there)
        for crate in CRATES:
            for part in ("src", "specs"):
                shutil.copytree(ROOT / "crates" / crate / part, top / "crates" / crate / part)
            for proof in filter(pathlib.Path.is_dir, (ROOT / "crates" / crate / "proofs").iterdir()):
                shutil.copytree(proof, top / "crates" / crate / "proofs" / proof.name)
        (top / "crates.txt").write_text("json_text:\njer: json_text\n")
        write_modules(top / "crates/jer/specs", chosen)
        run = subprocess.run(["rt", "check"], cwd=top / "crates/jer", capture_output=True, text=True)
        text = run.stdout + run.stderr
        for wrong in re.finditer(r"(Cases\d+)\.antt:\d+:\d+: error: `(case\d+)`", text):
            source = (top / f"crates/jer/specs/{wrong.group(1)}.antt").read_text()
            print("not shown equal:", source.split(f"\n{wrong.group(2)} : ")[0].rsplit("-- ", 1)[1])
        if run.returncode != 0:
            print(text[-3000:])
            return 1
    print(f"definitions run on {len(chosen)} stored cases: all answers are the second program's; left out as too long: {len(taken) - len(chosen)}")
    return 0


if __name__ == "__main__":
    sys.exit(main())
