"""The worked processes of silos, as the crate worked_rows states them; and the plain Rust process that reads the same lines."""

import re
import sys
from pathlib import Path
from subprocess import run

TOP = Path(__file__).resolve().parent.parent
TOKEN = re.compile(r'codes\s+"(?P<text>(?:[^"\\]|\\.)*)"|(?P<lines>text_of_lines)|(?P<byte>\d+)|(?P<none>\[\])|(?P<open>\()|(?P<close>\))|'
                   r'(?P<put>∷)|(?P<join>\+\+)|(?P<end>[;}])|\s+')
ROW = re.compile(r"^abbrev pub (\w+) : ProcessRow\n\1 = record \{", re.M)
FIELD = re.compile(r"\s*(\w+) = (?:(None);|(?:Some\b)?)")


class Bytes:
    """Reads what a list of bytes or of lines is, from a place in a text up to the end of its field: `∷` puts an item in front of a
    list, `++` a list."""

    def __init__(self, text, at):
        self.text, self.at = text, at
        self.next()

    def next(self):
        kind, self.kind = getattr(self, "kind", None), None
        while not self.kind:
            found = TOKEN.match(self.text, self.at)
            if not found:
                sys.exit(f"worked_silos: can't read {self.text[self.at:self.at + 40]!r}")
            self.at, self.kind, self.found = found.end(), found.lastgroup, found
        return kind

    def item(self):
        found = self.found
        kind = self.next()
        if kind == "text":
            return list(re.sub(r"\\(.)", r"\1", found["text"]).encode())
        if kind == "lines":
            return [byte for line in self.item() for byte in line + [10]]
        if kind == "byte":
            return int(found["byte"])
        if kind == "none":
            return []
        inside = self.whole()
        self.next()
        return inside

    def whole(self):
        first = self.item()
        if self.kind not in ("put", "join"):
            return first
        return [first] + self.whole() if self.next() == "put" else first + self.whole()


def rows():
    """Each process: its name, the words of its command line, what it reads, and what it writes."""
    for file in sorted((TOP / "crates/worked_rows/specs").glob("*.antt")):
        text = file.read_text()
        for row in ROW.finditer(text):
            at, fields = row.end(), {}
            while len(fields) < 4:
                field = FIELD.match(text, at)
                at, fields[field[1]] = field.end(), None
                if not field[2]:
                    reader = Bytes(text, at)
                    fields[field[1]] = bytes(reader.whole())
                    at = reader.at
            token = [] if fields["token"] is None else ["--join", fields["token"].decode()]
            yield row[1], ["silo", fields["silo"].decode(), "--hashing", "stated", *token], fields["input"], fields["text"]


def build_plain(folder):
    """The plain process as a program in the folder."""
    source = TOP / "crates/directory_console/plain_silo/main.rs"
    if run(["rustc", "--edition", "2021", "-O", source, "-o", f"{folder}/silo"]).returncode:
        sys.exit(1)
    return f"{folder}/silo"
