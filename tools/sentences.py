#!/usr/bin/env python3
r"""Finds every word of document 01's rules in a quotation, at the definition or the promise that says it.

    python3 tools/sentences.py                 what is not quoted, misquoted or quoted needlessly; fails if there is any
    python3 tools/sentences.py --all           every sentence, with the files that quote it
    python3 tools/sentences.py --demonstrate   takes out each quotation in turn and shows that the check then fails

Demanded are all words of the sections in SECTIONS, and of their tables all columns but the first. Sentences that say nothing but how
the code is written are left out: they are listed in FORMS, and "How each place should look" must quote a part of each. The other
sentences that it quotes are rules as well and are demanded whole.

Quotations count in the comments of BELIEVED, the definitions that have to be believed, and on the page of promises. There every text in
double quotes is document 01's, verbatim but for white space; `(..)` stands for words left out of a paragraph. Right before it may stand

    01, Reading: "..."                the section that has it
    01, Refusal numbers, 7: "..."     the row of the table that has it; first in a comment or after a semicolon, `7: "..."`
    X.697 27.3.4: "..."               another source (also ECMA-404, RFC, Demand): then it is not document 01's and is not looked at

The words up to `(..)` must stand once only in the part named, or in all sections together if none is. Between backticks, and after a
backslash, a quotation mark does not end the quotation. Each quotation must have a word that no other one has, so none can go unnoticed.
In the other comments of crates/ a quotation that names document 01 must be in it, and counts for nothing.
"""
import pathlib
import re
import sys

ROOT = pathlib.Path(__file__).resolve().parent.parent
BELIEVED = ["crates/json_text/specs", "crates/jer/specs", "crates/capi/specs", "crates/lines/specs"]
PROMISES = "docs/PROMISES.md"
SECTIONS = ["What the library handles", "Type table", "Value table", "Reading", "Writing", "Refusal numbers",
            "What the proofs must say", "Sample texts on both sides"]
FORMS = ["Each kind's number and the marks it may carry belong to the row's own type.",
         "What each byte may begin or continue comes from a table of 256 entries.",
         "The place in the text moves on by a call that hands back the next place.",
         "One 64-bit number records which members were met, and its ones are counted against the members known.",
         "A reader that holds the lent text together with its place serves the outermost tokens, once the same work exists over a plain "
         "slice and a number."]

QUOTATION = re.compile(r'`[^`]*`|"((?:`[^`]*`|\\.|[^"`\\])*)"')
SOURCE = re.compile(r'(?:(?:^|[ (])(?P<document>0\d)(?:, (?P<part>[^":]+))?|(?:^|; )(?P<row>\d+)): $')
OTHER_SOURCE = re.compile(r'(?:X\.697|ECMA-404|RFC|Demand)\b[^":]*: $')


class Document:
    """A document as one line of text, with the places of its sections, table rows, paragraphs and sentences in it."""

    def __init__(self, name, path, sections, forms):
        self.name, self.forms = name, forms
        self.text = ""
        self.parts = {}  # a section's name, or a row's ("Refusal numbers, 7"): from where to where
        self.paragraphs = []
        self.whole = re.sub(r"^```$", "", (ROOT / path).read_text(), flags=re.M)
        for section in sections:
            self.take_section(section)
        self.sentences = [s for p in self.paragraphs for s in self.split(*p) if self.text[slice(*s)] not in forms]

    def section(self, name):
        return self.whole.split("\n## " + name + "\n", 1)[1].split("\n## ", 1)[0]

    def add(self, paragraph):
        start = len(self.text)
        self.text += " ".join(paragraph.split()) + " "
        return start, len(self.text) - 1

    def take_section(self, name):
        start = len(self.text)
        for paragraph in re.split(r"\n(?=\n|- |\|)", self.section(name)):
            paragraph = paragraph.strip().removeprefix("- ")
            if not paragraph.startswith("|"):
                self.paragraphs += [self.add(paragraph)] if paragraph else []
                continue
            cells = paragraph.strip("|").split("|")
            if cells[0].strip().isdigit():
                self.paragraphs.append(self.add("|".join(cells[1:])))
                self.parts[f"{name}, {cells[0].strip()}"] = self.paragraphs[-1]
        self.parts[name] = (start, len(self.text))

    def split(self, start, end):
        ends = [m.start() for m in re.finditer(r"(?<=\.) (?=[A-Z])", self.text[start:end])] + [end - start]
        begins = [0] + [e + 1 for e in ends[:-1]]
        return [(start + b, start + e) for b, e in zip(begins, ends)]

    def words(self, start, end):
        """The words from one place to another, without the punctuation around them."""
        for m in re.finditer(r"[^\s|]+", self.text[start:end]):
            word = m.group().strip("`.,;:()")
            if word:
                begin = start + m.start() + m.group().index(word)
                yield begin, begin + len(word)

    def places(self, piece, start, end):
        pattern = r"(?<![A-Za-z0-9])" + re.escape(piece) + r"(?![A-Za-z0-9])"
        return [(start + m.start(), start + m.end()) for m in re.finditer(pattern, self.text[start:end])]

    def find(self, quoted, part):
        """The places of a quotation's pieces; or what is wrong with it."""
        if part is not None and part not in self.parts:
            return None, f"the document has no part {part!r}"
        start, end = self.parts[part] if part else (0, len(self.text))
        found = []
        for piece in (" ".join(p.split()) for p in quoted.split("(..)")):
            if not piece.strip("`.,;:() "):
                continue
            there = self.places(piece, start, end)
            if not there or (len(there) > 1 and not found):
                return None, f"stands {len(there)} times in {part or 'the sections'}: {piece!r}"
            found.append(there[0])
            start, end = there[0][1], next(e for s, e in self.paragraphs if s <= there[0][0] < e)
        return found, None


def comments(text, mark):
    """The comments of a file, each read as one line."""
    lines = []
    for line in text.split("\n") + [""]:
        if line.strip().startswith(mark):
            lines.append(line.strip()[len(mark):].strip())
        elif lines:
            yield " ".join(lines)
            lines = []


def quotations(text):
    """Each text in double quotes, with what stands between it and the quotation before it; an unpaired mark as None."""
    after = 0
    for m in QUOTATION.finditer(text):
        if m.group(1) is not None:
            yield text[after:m.start()], m.group(1)
            after = m.end()
    if '"' in QUOTATION.sub("", text):
        yield text, None


def counted():
    """The quotations that count, as (file, text before, quotation)."""
    yield from ((PROMISES, *q) for q in quotations(" ".join((ROOT / PROMISES).read_text().split())))
    for path in sorted(p for folder in BELIEVED for p in (ROOT / folder).glob("*.antt")):
        for comment in comments(path.read_text(), "--"):
            yield from ((str(path.relative_to(ROOT)), *q) for q in quotations(comment))


def elsewhere():
    """Those that name a document in the other comments of crates/."""
    for path in sorted((ROOT / "crates").rglob("*.*t")):
        name = str(path.relative_to(ROOT))
        if "out" in path.relative_to(ROOT).parts:
            continue  # made by rt
        if path.suffix in (".antt", ".rt") and str(path.parent.relative_to(ROOT)) not in BELIEVED:
            for comment in comments(path.read_text(), "--" if path.suffix == ".antt" else "//"):
                for before, quoted in quotations(comment):
                    named = SOURCE.search(before)
                    if quoted is not None and named and named["document"]:
                        yield name, before, quoted


def source(before):
    """The document that a quotation is from by what stands before it, and the part of it; None of another source."""
    if OTHER_SOURCE.search(before):
        return None, None
    named = SOURCE.search(before)
    if not named:
        return "01", None
    return named["document"] or "01", named["part"] or (f"Refusal numbers, {named['row']}" if named["row"] else None)


def covers(document, found):
    """For each quotation of the document its file, its text and its words' places; and what is wrong with others."""
    good, wrong = [], []
    for file, before, quoted in found:
        name, part = source(before)
        if quoted is None:
            wrong.append(f"{file}: a quotation mark without its partner: {before[:80]}")
        elif name == document.name:
            places, fault = document.find(quoted, part)
            if fault:
                wrong.append(f'{file}: "{quoted}": {fault}')
            else:
                good.append((file, quoted, {w for place in places for w in document.words(*place)}))
    return good, wrong


def missing(document, good):
    """The sentences of which some words are not quoted."""
    covered = set().union(*(words for _, _, words in good))
    for sentence in document.sentences:
        left = [document.text[slice(*w)] for w in document.words(*sentence) if w not in covered]
        if left:
            yield f"not quoted: {document.text[slice(*sentence)]}\n    words: {' '.join(left)}"


def needless(document, good):
    """The quotations whose every demanded word another quotation has."""
    demanded = {w for s in document.sentences for w in document.words(*s)}
    for i, (file, quoted, words) in enumerate(good):
        others = good[:i] + good[i + 1:]
        if not (words & demanded) - set().union(*(o for _, _, o in others)):
            where = ", ".join(sorted({f for f, _, o in others if o & words})) or "a sentence that is left out"
            yield f'{file}: not needed: "{quoted}": quoted in {where}'


def forms_unnamed(document):
    """The sentences left out of which "How each place should look" quotes nothing."""
    shapes = re.findall(r'^- "(.*?)":', document.section("How each place should look"), re.M)
    return [f"left out, but no form is named: {f}" for f in document.forms if f not in document.text or not any(s in f for s in shapes)]


def faults(document, good, wrong):
    return [*wrong, *covers(document, elsewhere())[1], *forms_unnamed(document), *missing(document, good), *needless(document, good)]


def unnoticed(document, good):
    """The quotations that could be taken out, each tried in turn."""
    for i, (file, quoted, _) in enumerate(good):
        if not any(missing(document, good[:i] + good[i + 1:])):
            yield f'{file}: could be taken out unnoticed: "{quoted}"'


def listed(document, good):
    """Every sentence with the files that quote it."""
    for sentence in document.sentences:
        words = set(document.words(*sentence))
        yield f"{document.text[slice(*sentence)]}\n    {', '.join(sorted({f for f, _, w in good if w & words}))}"


def check(document):
    """Prints what is wrong, or could go unnoticed; how many there are."""
    good, wrong = covers(document, counted())
    if "--all" in sys.argv:
        print("\n".join(listed(document, good)))
    bad = faults(document, good, wrong)
    said = f"{len(document.sentences)} sentences of document {document.name} in {len(good)} quotations; faults: {len(bad)}"
    if "--demonstrate" in sys.argv and not bad:
        bad = list(unnoticed(document, good))
        said = f"{len(good)} quotations; " + (f"{len(bad)} could go unnoticed" if bad else "taking out any one fails the check")
    print("\n".join(bad + [said]))
    return len(bad)


def main():
    documents = [Document("01", "docs/document-01.md", SECTIONS, FORMS)]
    return 1 if sum([check(document) for document in documents]) else 0


if __name__ == "__main__":
    sys.exit(main())
