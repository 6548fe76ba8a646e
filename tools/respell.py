#!/usr/bin/env python3
"""Brought this repository's own names to today's spelling, once, right after the toolchain's port.py (docs/PORT.md).

    python3 tools/respell.py [--check]

- The crate `json` is called `json_text`, since the toolchain has a library of the first name, and jer's specs/Contracts.antt is
  specs/CallClauses.antt, since the toolchain makes a module `contracts`.
- A definition, a constructor, a field or a lemma is spelled in snake case: `hexValue` is `hex_value`.
- In a lemma's name a dash joins two names, and a plain word is added with an underscore: `length-take` stays, `part-past` is `part_past`.
- A lemma whose name would fall together with another's gets `_lem`.
- Functions of src/, exported C names, strings, inputs and outputs keep their names.

It goes by text: by the names that specs/ and proofs/ declare. --check prints the new names and writes nothing.
"""
import collections
import pathlib
import re
import subprocess
import sys

ROOT = pathlib.Path(__file__).resolve().parent.parent
CRATES = ROOT / 'crates'
NAME = r'[^\s(){}.;,@"«»\[\]|]+'
TOKEN = re.compile(NAME)
CAMEL = re.compile(r'[a-z][a-z0-9]*[A-Z]')
DECLARED = re.compile(r'^ *(?:(?:pub|abbrev|unfoldable|data|record|ruleset) )*((?:' + NAME + r' )*?' + NAME + r') :(?: |$)', re.M)
USE = re.compile(r'\buse ([A-Za-z_.]+)\.\{([^}]*)\}')
OF_A_FUNCTION = ('Proof.antt', 'Answers.antt', 'Invariants.antt')
CONSTRUCTORS = {'some', 'none', 'true', 'false', 'suc', 'zero', 'cons', 'nil'}
PATHS = [
    (r'\bRattle\.json(?=\.)', 'Rattle.json_text'),
    (r'\bjson(?=::)', 'json_text'),
    (r'\bRattle\.jer\.specs\.Contracts\b', 'Rattle.jer.specs.CallClauses'),
    (r"`jer`'s Contracts\.antt", "`jer`'s CallClauses.antt"),
]


def snake(part):
    """`hexValue` as `hex_value`; a part that begins with a capital, or has none, stays."""
    return re.sub(r'(?<=[a-z0-9])([A-Z])', lambda match: '_' + match.group(1).lower(), part) if CAMEL.match(part) else part


def laid_down(specs=False):
    """The files of specs/, and the lemmas of proofs/."""
    for path in sorted(CRATES.rglob('*.antt')):
        if 'specs' in path.parts or not specs and path.name not in OF_A_FUNCTION:
            yield path.read_text(encoding='utf-8')


def declared(texts):
    """Every name that a text declares."""
    found = {name for text in texts for match in DECLARED.finditer(text) for name in match.group(1).split()}
    return {name for name in found if re.match(r'[A-Za-z]', name)}


def taken(texts):
    """Every name that a text takes from the toolchain's libraries."""
    own = tuple(f'Rattle.{crate.name}.' for crate in CRATES.iterdir())
    lines = (match.groups() for text in texts for match in USE.finditer(text))
    return {name for path, names in lines if not (path + '.').startswith(own) for name in names.replace(',', ' ').split()}


def joined(name, known):
    """A lemma's name: a dash only between two known names."""
    parts = [snake(part) for part in name.split('-')]
    out = parts[0]
    for left, right in zip(parts, parts[1:]):
        out += ('-' if left in known and right in known else '_') + right
    return out


def new_names():
    texts = list(laid_down())
    theirs = taken(texts)
    ours = declared(texts) - theirs
    known = {snake(name) for name in ours | theirs if '-' not in name} | CONSTRUCTORS
    found = {}
    for name in ours:
        if '-' not in name:
            found[name] = snake(name)
        elif not re.fullmatch(r'[A-Z]+(-[A-Z0-9]+)*', name):
            found[name] = joined(name, known)
    told, defined = collections.defaultdict(set), declared(laid_down(specs=True))
    for name in ours | theirs:
        told[found.get(name, name)].add(name)
    for new, old in told.items():
        first = sorted(old, key=lambda name: (name not in theirs, name not in defined, '-' in name or '_' in name, name))[0]
        for name in old - {first}:
            found[name] = new + '_lem'
    return {name: new for name, new in found.items() if new != name}


def respelled(text, found, code):
    """A text with its names anew. A name with an underscore alone may be a function's too: it stays in code, and in a path."""
    for old, new in PATHS:
        text = re.sub(old, new, text)

    def one(match):
        name, (start, end) = match.group(0), match.span()
        plain = name == name.lower() and '-' not in name
        if plain and (code or text[start - 1:start] == '.' or text[end:end + 1] == '.'):
            return name
        return found.get(name, name)

    return TOKEN.sub(one, text)


def main(words):
    found = new_names()
    if words == ['--check']:
        print('\n'.join(f'{old} {new}' for old, new in sorted(found.items())))
        return
    for path in sorted(CRATES.rglob('*')):
        if path.suffix in ('.antt', '.rt', '.edit') and 'out' not in path.parts:
            text = path.read_text(encoding='utf-8')
            new = respelled(text, found, path.suffix != '.antt')
            if new != text:
                path.write_text(new, encoding='utf-8')
    listed = ROOT / 'crates.txt'
    listed.write_text(re.sub(r'\bjson\b', 'json_text', listed.read_text(encoding='utf-8')), encoding='utf-8')
    library = CRATES / 'jer' / 'specs' / 'Lib.antt'
    library.write_text(library.read_text(encoding='utf-8').replace('pub mod Contracts\n', 'pub mod CallClauses\n'), encoding='utf-8')
    for old, new in (('crates/json', 'crates/json_text'), ('crates/jer/specs/Contracts.antt', 'crates/jer/specs/CallClauses.antt')):
        subprocess.run(['git', 'mv', old, new], cwd=ROOT, check=True)


if __name__ == '__main__':
    main(sys.argv[1:])
