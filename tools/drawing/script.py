"""A script, and which lines of its output each of its commands printed, by the rules of docs/RULES.md."""

from dataclasses import dataclass

from drawing.page import Unreadable

FIRST_WORDS = {"join": "view", "leave": "view", "kill": "view", "wake": "started", "close": "closing", "cancel": "cancelled",
               "offer": "offered", "nudge": "nudged", "deliver": "delivered", "lose": "lost", "owner": "owner", "place": "place",
               "check": "check"}
FIND_WORDS = {"find": ("cached", "finding"), "forget": ("forgot", "nothing")}
SHOW_WORDS = ("silo", "held", "range", "no")
SYNC_ENDS = ("refused 805", "refused 908", "refused 909")
SETTLE_ENDS = ("refused 908", "refused 909")


@dataclass
class Line:
    """A line of a script: its number in the script that was given, and its words."""
    number: int
    text: str

    @property
    def words(self):
        """The words of the command, none of a remark."""
        return [] if self.is_remark() else [word for word in self.text.split(" ") if word]

    def is_remark(self):
        """Whether it is a remark."""
        return self.text.lstrip(" ").startswith(";")

    def remark(self):
        """What the remark says."""
        return self.text.lstrip(" ;").strip()

    def command(self):
        """Its first word, empty where it says nothing."""
        return self.words[0] if self.words else ""


def read_script(data):
    """The lines of a script from its bytes."""
    try:
        text = data.decode("ascii")
    except UnicodeDecodeError:
        raise Unreadable("the script has a byte that isn't ASCII") from None
    lines = text.removesuffix("\n").split("\n")
    return [Line(index, line.removesuffix("\r")) for index, line in enumerate(lines, 1)]


def with_mail(lines):
    """The script with `mail` before each letter is lost and at its end, so that its output tells of every letter."""
    asked = []
    for line in lines:
        if line.command() == "lose":
            asked.append(Line(line.number, "mail"))
        asked.append(line)
    return [*asked, Line(lines[-1].number, "mail")]


def text_of(lines):
    """Lines as the text of a script."""
    return "".join(f"{line.text}\n" for line in lines)


class Output:
    """The lines of an output, read from the first on."""

    def __init__(self, text):
        self.rest = text.splitlines()
        self.rest.reverse()
        self.delivered = set()

    def next_is(self, test):
        """Whether there is a next line, and the test holds of it."""
        return bool(self.rest) and test(self.rest[-1])

    def take(self):
        """The next line."""
        line = self.rest.pop()
        words = line.split(" ")
        if words[0] == "delivered":
            self.delivered.add(words[1])
        return line

    def take_while(self, test):
        """The next lines, as long as the test holds."""
        taken = []
        while self.next_is(test):
            taken.append(self.take())
        return taken

    def is_fresh_delivery(self, line):
        """Whether the line tells the first delivery of a letter."""
        words = line.split(" ")
        return words[0] == "delivered" and words[1] not in self.delivered


def paired(lines, text):
    """Each line of a script, with the lines of the output that it printed."""
    output, pairs = Output(text), []
    for line in lines:
        if output.next_is(lambda said: said.startswith("line ")):
            raise Unreadable(f"the script has a fault: {told_fault(lines, output.take())}")
        pairs.append((line, printed_by(line, output)))
    if output.rest:
        raise Unreadable(f"the output says more than the script prints, from `{output.rest[-1]}` on")
    return pairs


def told_fault(lines, said):
    """A fault, by the number of its line in the script that was given."""
    words = said.split(" ")
    return f"line {lines[int(words[1]) - 1].number} {' '.join(words[2:])}"


def printed_by(line, output):
    """The lines that this line printed, taken from the output."""
    command = line.command()
    if command == "settle":
        return several(output, output.is_fresh_delivery, SETTLE_ENDS)
    if command == "sync":
        return several(output, is_sight, SYNC_ENDS)
    if command == "mail":
        return output.take_while(is_mail)
    return [one(line, output), *output.take_while(is_shown if command == "show" else is_nothing)] if command else []


def several(output, test, ends):
    """The lines of a command that prints one for each thing that it does, and perhaps a refusal at the end."""
    return output.take_while(test) + ([output.take()] if output.next_is(lambda said: said in ends) else [])


def one(line, output):
    """The one line, or the first one, that a command prints."""
    if not output.next_is(lambda said: is_answer(line.command(), said)):
        said = f"`{output.rest[-1][:80]}`" if output.rest else "nothing"
        raise Unreadable(f"line {line.number}: the output has {said} where `{line.text.strip()}` prints something else")
    return output.take()


def is_answer(command, said):
    """Whether a command may have printed this line."""
    words = said.split(" ")
    if words[0] == "refused" and len(words) == 2:
        return True
    if command in FIND_WORDS:
        return words[0] in FIND_WORDS[command]
    if command == "see":
        return is_sight(said)
    return words[0] == {**FIRST_WORDS, "show": "version"}.get(command) or (command == "dump" and said.startswith("{"))


def is_sight(said):
    """Whether a line tells that a silo saw a view."""
    return said.split(" ")[1:2] == ["sees"]


def is_mail(said):
    """Whether a line tells a letter of the mail."""
    words = said.split(" ")
    return len(words) == 5 and words[0].isdigit() and words[4].isdigit()


def is_shown(said):
    """Whether a line is one of those that `show` prints after the first."""
    return said.split(" ")[0] in SHOW_WORDS


def is_nothing(_):
    """No line."""
    return False
