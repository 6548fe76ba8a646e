#!/usr/bin/env python3
"""Checks the reading list of docs/PROMISES.md: the files that have to be believed.

    python3 tools/reading_list.py            checks
    python3 tools/reading_list.py --count    puts the numbers of lines right, then checks

The page names calls and theorems, each as `name` (`path`). What they cite has to be believed: the definitions in specs/ and the types
declared in src/ that their contracts and statements name, and what those files import, and so on. The list of the page must have
exactly these files, each with its lines (without blank lines, comments and imports) and their sum, which README says too; but for the files that its second
table names as proved equal to something simpler, which are not followed. The toolchain's modules that the list's files import must be
named on the page.
"""
import pathlib
import re
import sys

ROOT = pathlib.Path(__file__).resolve().parent.parent
PAGE = ROOT / "docs/PROMISES.md"
README = ROOT / "README.md"
SUM = r"\*\*[\d,]+ lines\*\*"
NAME = r"[^\s(){}\[\],;.:⌜⌝]+"
OWN = "|".join(sorted(c.name for c in (ROOT / "crates").iterdir()))


def imports(text):
    """Each imported name, or a module's own name, with its module; an operator by its middle, which is how it is written."""
    found = {}
    for line in re.findall(r"^(?:pub )?(?:ghost )?use ([^\s{;]+(?:\{[^}]*\}| as [^\s;]+)?)", text, re.M):
        module, _, group = line.partition(".{")
        if group:
            for name in filter(None, re.split(r",\s*|\s+$", group.rstrip("}").strip())):
                found[name.split(" as ")[-1].strip("◌")] = module
        else:
            module, _, alias = line.partition(" as ")
            found[alias or module.rsplit(".", 1)[-1]] = module
    return found


def file_of(module):
    """The file of a module of this repository, or None."""
    own = re.match(rf"Rattle\.({OWN})\.specs\.(.+)", module)
    if not own:
        return None
    crate, path = own.groups()
    if not path.startswith("declared."):
        return f"crates/{crate}/specs/{path.split('.')[0]}.antt"
    parts = path.split(".")[1:]
    inner = parts[0] if len(parts) > 1 and parts[1] != "TheVariants" else "lib"
    return f"crates/{crate}/src/{inner}.rt"


def statement(path, name):
    """What a theorem states, or a function's contract, with the parameters of the modules around it."""
    text = (ROOT / path).read_text()
    if path.endswith(".rt"):
        gives = re.search(rf"^\s*ghost {name}_gives = \{{.*?\}};$", text, re.M | re.S)
        if gives:
            return gives.group()
        head = re.split(r"^\s*\{$", re.split(rf"\bfn {name}[<(]", text, maxsplit=1)[1], maxsplit=1, flags=re.M)[0]
        clauses = re.search(r"^\s*(?:requires|ensures) .*", head, re.M | re.S)
        return clauses.group() if clauses else ""
    found = re.search(rf"^(\s*)pub {re.escape(name)} : (.*?)(?=^\1(?:unfolding |{re.escape(name)} ))", text, re.M | re.S)
    around = re.findall(r"^module _ (.*?) where$", text[:found.start()], re.M | re.S)
    return found.group(2) + (around[-1] if found.group(1) and around else "")


def cited(path, name):
    words = set(re.findall(NAME, statement(path, name)))
    return {module for word, module in imports((ROOT / path).read_text()).items() if word in words}


def followed(modules, equal):
    """The files behind these modules, and the toolchain's modules that they import."""
    files, tools, left = set(), set(), list(modules)
    while left:
        module = left.pop()
        path = file_of(module)
        if path is None:
            tools.add(module)
        elif path not in files and path not in equal:
            files.add(path)
            if path.endswith(".antt"):
                left += imports((ROOT / path).read_text()).values()
    return files, {m for m in tools if not re.match(rf"Rattle\.({OWN})\.", m)}


def lines(path):
    text = (ROOT / path).read_text()
    if path.endswith(".rt"):
        kept = re.findall(r"^pub (?:enum|struct) .*?^}", text, re.M | re.S)
        text = "\n".join(kept)
    told = [line.strip() for line in text.split("\n")]
    return sum(bool(t) and not t.startswith(("--", "//", "use ")) for t in told)


def counted(page):
    """The page with the lines of each listed file, and their sum, as they are."""
    page = re.sub(r"^(\| \d+ \| `(crates/[^`]+)` \|) \d+ \|", lambda m: f"{m.group(1)} {lines(m.group(2))} |", page, flags=re.M)
    total = sum(map(int, re.findall(r"^\| \d+ \| `crates/[^`]+` \| (\d+) \|", page, re.M)))
    README.write_text(re.sub(SUM, f"**{total:,} lines**", README.read_text()))
    return re.sub(SUM, f"**{total:,} lines**", page)


def main():
    if "--count" in sys.argv:
        PAGE.write_text(counted(PAGE.read_text()))
    page = PAGE.read_text()
    named = set(re.findall(r"`([^`\s]+)`\s+\(`(crates/[^`]+\.(?:rt|antt))`\)", page))
    listed = dict(re.findall(r"^\| \d+ \| `(crates/[^`]+)` \| (\d+) \|", page, re.M))
    equal = set(re.findall(r"^\| `(crates/[^`]+)`[^|]*\|[^|]*`\S+` \(`", page, re.M))
    roots = [(n, p) for n, p in named if "/proofs/" in p or "/src/" in p]
    files, tools = followed({m for n, p in roots for m in cited(p, n)}, equal)
    wrong = [f"{p} has to be believed and is not listed" for p in sorted(files - set(listed))]
    wrong += [f"{p} is listed and nothing cites it" for p in sorted(set(listed) - files)]
    wrong += [f"{p} has {lines(p)} lines, not {n}" for p, n in listed.items() if lines(p) != int(n)]
    wrong += [f"the toolchain's {m} is not named" for m in sorted(tools) if f"`{m}`" not in page]
    total = sum(map(lines, files))
    wrong += [f"the list has {total:,} lines, and {p.name} does not say so" for p in (PAGE, README) if re.findall(SUM, p.read_text()) != [f"**{total:,} lines**"]]
    for line in wrong:
        print(line)
    print(f"{len(files)} files of {total} lines have to be believed, as {len(roots)} calls and theorems cite them; {len(wrong)} faults")
    return 1 if wrong else 0


if __name__ == "__main__":
    sys.exit(main())
