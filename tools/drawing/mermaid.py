"""The rows of a script as a sequence diagram in Mermaid's language."""

from functools import singledispatch

from drawing.chronicle import Answer, Change, Delivery, Loss, Remark, State, Step, Waiting
from drawing.layout import numbers_by_joining, part_of


def mermaid_of(rows, title, first, last):
    """The diagram of the part of a story from one line of the script to another."""
    names = {silo: f"silo{number}" for silo, number in numbers_by_joining(rows).items()}
    named = [f"    participant {name} as {plain(silo)}" for silo, name in names.items()]
    told = [f"    {line}" for row in part_of(rows, first, last) for line in told_row(row, names)]
    return "\n".join(["---", f"title: {quoted(title)}", "---", "sequenceDiagram", *named, *told, ""])


def plain(text):
    """A text in which nothing means anything to Mermaid."""
    return text.replace("#", "#35;").replace(";", "#59;").replace("#35#59;", "#35;")


def quoted(text):
    """A text between quotation marks."""
    return '"' + text.replace("\\", "\\\\").replace('"', '\\"') + '"'


def over_all(names, text):
    """A note over all silos."""
    ends = list(dict.fromkeys([next(iter(names.values())), list(names.values())[-1]])) if names else []
    return [f"Note over {','.join(ends)}: {plain(text)}"] if ends else []


@singledispatch
def told_row(row, names):
    """The lines of a row."""
    return []


@told_row.register
def _(row: Remark, names):
    return over_all(names, row.text)


@told_row.register
def _(row: Change, names):
    return over_all(names, row.words())


@told_row.register
def _(row: Answer, names):
    return over_all(names, row.text)


@told_row.register
def _(row: Step | State, names):
    return [f"Note over {names[row.silo]}: {'<br/>'.join(plain(word) for word in row.words)}"]


@told_row.register
def _(row: Delivery, names):
    arrow = "-->>" if row.is_again else "->>"
    return [f"{ends(row.letter, arrow, names)}: {plain(row.name())}: {plain(row.effect)}"]


@told_row.register
def _(row: Loss, names):
    return [f"{ends(row.letter, '-x', names)}: {row.name()}"]


@told_row.register
def _(row: Waiting, names):
    return [f"{ends(row.letter, '--)', names)}: {row.name()}"]


def ends(letter, arrow, names):
    """An arrow from a letter's sender to its receiver."""
    return f"{names[letter.sender]}{arrow}{names[letter.receiver]}"
