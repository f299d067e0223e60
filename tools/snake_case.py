#!/usr/bin/env python3
"""snake_case.py: brings the repository's own words of the logic to snake case. Run once at the top, behind port.py.

Definitions, lemmas, fields and constructors of specs/ and proofs/ with a dash or a capital inside (`sent-before`,
`sentBytes`) are spelled `sent_before`, `sent_bytes`, and so is every place that names them: specs, proofs, clauses,
edits, and the pages of docs/ where they stand between backticks. Types and modules keep their names, and so do the
functions of src/, strings, inputs and outputs. Two names that would fall together are told apart by OTHERWISE; one that
it does not know stops the script before it writes.
"""
import collections
import glob
import os
import re
import sys

# A lemma that would have a definition's name gets _lem; what else would fall together gets a name of its own.
LEMMAS = """total-fits record-fits total-of known-of records-back piece-size record-long field-at length-field option-bytes
sums-from behind-pseudo records-bytes capture-bytes le-value ip-bytes read-in is-plan assembly-at led-to free-from all-fit
opened-at is-number parts-of keyed-by carried-by keyed-piece out-by length-by start-at""".split()
OTHERWISE = {n: n.replace("-", "_") + "_lem" for n in LEMMAS}
OTHERWISE |= {
    "end-at": "end_at_turn",
    "sent-before": "sent_as_before",
    "tcpHdr": "tcp_hdr_of",
    "udpHdr": "udp_hdr_of",
    "zero-before": "zero_before_wrong",
    "no-port": "no_port_wrong",
    "three-numbers": "three_numbers_wrong",
    "five-numbers": "five_numbers_wrong",
}
# Spelled alike already, and told apart where the file is the first word: 'file: old new'.
IN_FILES = [
    ("crates/assembly/proofs/Steps.antt", "record_of", "record_of_lem"),
    ("crates/words/proofs/Texts.antt", "found_none", "found_none_lem"),
    ("crates/demands/proofs/Numbers.antt", "found_in", "found_in_lem"),
    ("crates/demands/proofs/WrongWord.antt", "kept_by", "kept_by_lem"),
    ("crates/demands/proofs/Reported.antt", "same_end", "same_end_lem"),
    ("crates/words/specs/Examples.antt", "no_number", "no_number_wrong"),
    ("crates/words/proofs/Reading.antt", "no_number", "no_number_lem"),
    ("crates/words/proofs/Reading.antt", "is_address", "is_address_lem"),
]
# Fields that share a definition's name, and are never beside it.
APART = {"ip_sum", "behind_it", "first_bad", "place_for"}

NAME = r"[A-Za-z][\w'\u2032]*(?:-[A-Za-z0-9_][\w'\u2032]*)*"
DEFINED = re.compile(r"^\s*(?:(?:abbrev|unfoldable|pub|private|data|record|ruleset)\s+)*(" + NAME + r")(?:\s+[({][^=]*)?\s:\s(.*)")


def snake(name):
    parts = []
    for part in name.split("-"):
        if re.match(r"[a-z]", part):
            part = re.sub(r"(?<=[a-z0-9_])([A-Z])", lambda m: "_" + m.group(1).lower(), part)
        parts.append(part)
    return "_".join(parts)


def is_other(name):
    return "-" in name or re.match(r"[a-z]\w*[A-Z]", name) is not None


def read(path):
    with open(path, encoding="utf-8") as f:
        return f.read()


def defined(path):
    for line in read(path).split("\n"):
        if not line.lstrip().startswith("--"):
            m = DEFINED.match(line)
            if m:
                yield m.group(1), m.group(2), line


def library():
    """The words that a file can have from elsewhere: they are never renamed."""
    own = "|".join(sorted(os.listdir("crates")))
    words = set()
    for path in texts("*"):
        for m in re.finditer(r"use ([\w.\u00b7-]+)\.\{([^}]*)\}", read(path)):
            if not re.match(r"Rattle\.(?:" + own + r")\.", m.group(1)):
                words |= {w.split(" as ")[0].strip() for w in m.group(2).split(",")}
    return words


def texts(kind):
    found = glob.glob("crates/*/specs/**/*.antt", recursive=True) + glob.glob("crates/*/proofs/**/*.antt", recursive=True)
    if kind == "*":
        found += glob.glob("crates/*/src/**/*.rt", recursive=True)
    return sorted(found)


def table():
    names = collections.defaultdict(set)
    for path in texts("antt"):
        if path.endswith("/Proof.antt"):
            continue
        for name, _, _ in defined(path):
            names[name].add(path)
    other = {n for n in names if is_other(n)} - library()
    to = {n: OTHERWISE.get(n, snake(n)) for n in other}
    renamed_in_files = {old for _, old, _ in IN_FILES}
    by = collections.defaultdict(set)
    for n in names:
        by[to.get(n, n)].add(n)
    now = set(by)
    bad = {k: v for k, v in by.items() if len(v) > 1 and k not in APART and k not in renamed_in_files}
    if bad:
        for k, v in sorted(bad.items()):
            print(f"snake_case: {', '.join(sorted(v))} would all be {k}: " + "; ".join(sorted(p for n in v for p in names[n]))[:300])
        sys.exit(1)
    return to, now


def turned(text, to):
    return re.sub(r"(?<![\w'\u2032-])" + NAME, lambda m: to.get(m.group(0), m.group(0)), text)


class Loose(dict):
    """The same where port.py has not been, as in edits and pages: a name whose new spelling is there, too."""

    def __init__(self, to, now):
        super().__init__(to)
        self.now = now

    def get(self, name, default=None):
        if name in self or not is_other(name) or snake(name) not in self.now:
            return super().get(name, default)
        return snake(name)


def in_words(text, to):
    """A comment or a page: what stands between backticks, and words with a capital inside."""
    text = re.sub(r"`[^`\n]*`", lambda m: turned(m.group(0), to), text)
    return re.sub(r"(?<![\w'\u2032-])" + NAME, lambda m: to.get(m.group(0), m.group(0)) if "-" not in m.group(0) else m.group(0), text)


def plain(line):
    """A line of an edit: a prime is an apostrophe, and a word of the source stands without brackets."""
    return re.sub("\u00ab(\\w+)\u00bb", r"\1", line).replace("\u2032", "'")


def turn_code(path, to, comment):
    out = []
    for line in read(path).split("\n"):
        m = re.match(r'((?:[^"/-]|"(?:[^"\\]|\\.)*"|' + re.escape(comment[0]) + "(?!" + re.escape(comment[1]) + r")|[/-](?![/-]))*)(" + re.escape(comment) + r".*)?$", line)
        if m and m.group(2):
            line = pieces(m.group(1), to) + in_words(m.group(2), to)
        else:
            line = pieces(line, to)
        out.append(line)
    return "\n".join(out)


def pieces(code, to):
    """Code, but for its strings."""
    return "".join(p if p.startswith('"') else turned(p, to) for p in re.split(r'("(?:[^"\\]|\\.)*")', code))


def main():
    to, now = table()
    for path, old, new in IN_FILES:
        if os.path.exists(path):
            text = read(path)
            write(path, re.sub(r"(?<![\w'\u2032.-])" + old + r"(?![\w'\u2032-])", new, text))
    # what is brought in from a file of IN_FILES
    modules = {re.sub(r"^crates/(\w+)/(\w+)/(\w+)\.antt$", r"Rattle.\1.\2.\3", p): (o, n) for p, o, n in IN_FILES}
    for path in texts("*"):
        text = read(path)
        new = text
        for m in re.finditer(r"use ([\w.\u00b7-]+)\.\{([^}]*)\}", text):
            if m.group(1) in modules:
                o, n = modules[m.group(1)]
                if o in re.split(r"[ ,]+", m.group(2)):
                    new = re.sub(r"(?<![\w'\u2032.-])" + o + r"(?![\w'\u2032-])", n, new)
        own = dict(to)
        if path.endswith("/Proof.antt"):
            # lemmas of one proof: not what the kit asks for
            for name, rest, line in defined(path):
                if "-" in name and not rest.startswith("tie.") and not name.endswith("-spec") and not line.startswith(" "):
                    own.setdefault(name, snake(name))
        write(path, new)
        write(path, turn_code(path, own, "//" if path.endswith(".rt") else "--"))
    loose = Loose(to, now)
    for path in sorted(glob.glob("crates/*/*/*.edit")):
        lines = [in_words(x, loose) if x.startswith("#") else turned(plain(x), loose) for x in read(path).split("\n")]
        write(path, "\n".join(lines))
    for path in sorted(glob.glob("docs/**/*.md", recursive=True)) + ["README.md"]:
        text = in_words(read(path), loose)
        text = re.sub(r"\| (" + NAME + r") (in proofs/)", lambda m: "| " + loose.get(m.group(1), m.group(1)) + " " + m.group(2), text)
        write(path, text)
    print(f"snake_case: {len(to)} names")


def write(path, text):
    if text != read(path):
        with open(path, "w", encoding="utf-8") as f:
            f.write(text)


if __name__ == "__main__":
    main()
