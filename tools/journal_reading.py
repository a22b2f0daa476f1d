"""Reads a journal (kjrn), follows it entry by entry as far as it alone tells, and lays a transcript beside it."""
import functools
import re
from typing import NamedTuple, Optional

HEADER = re.compile(r"kjrn 1 harts (0|[1-9]\d{0,9}) steps (0|[1-9]\d{0,9})", re.ASCII)
NUMBER = re.compile(r"0|[1-9]\d{0,9}", re.ASCII)
ADDRESS = re.compile(r"0x(0|[1-9a-f][0-9a-f]{0,15})")
MOST_HARTS, MOST_STEPS, PLACES = 16, 4_000_000, 16
NO_ENDING = "no ending: the plan was used up"
ENDINGS = {"script": "script end", "halted": "all halted", "limit": "step limit"}
BANNER = re.compile(r"Entering kdb on processor (\d+) due to (.+) @ (0x[0-9a-f]{16})$")
LAST_LINE = re.compile(r"kdbsim: (.+) after (\d+) steps$")


class Refusal(Exception):
    """What is wrong with an input, and on which of its lines."""

    def __init__(self, line, why):
        super().__init__(f"line {line}: {why}")


class Entry(NamedTuple):
    kind: str                       # the letter that begins its line
    hart: Optional[int] = None      # of S, I, C, T, O, L and E
    late: tuple = ()                # of O
    what: object = None             # the place of U and P, the address of A, the ending of F


def number_below(word, bound, what):
    if not NUMBER.fullmatch(word):
        raise ValueError(f"no {what}: {word[:60]!r}")
    if int(word) >= bound:
        raise ValueError(f"{what} {word}, where each is below {bound}")
    return int(word)


def read_late(word, harts):
    if word == "-":
        return ()
    late = tuple(number_below(it, harts, "hart") for it in word.split(","))
    if any(low >= high for low, high in zip(late, late[1:])):
        raise ValueError(f"late harts that don't ascend: {word}")
    return late


@functools.lru_cache(maxsize=4096)
def read_entry(line, harts):
    """The entry of one line; ValueError says why it is none. Equal lines share one entry."""
    match line.split(" "):
        case [("S" | "I" | "C" | "T" | "L" | "E") as kind, word]:
            return Entry(kind, number_below(word, harts, "hart"))
        case ["O", word, late]:
            return Entry("O", number_below(word, harts, "hart"), read_late(late, harts))
        case [("U" | "P") as kind, word]:
            return Entry(kind, what=number_below(word, PLACES, "place"))
        case ["A", word] if ADDRESS.fullmatch(word):
            return Entry("A", what=int(word, 16))
        case ["A", word]:
            raise ValueError(f"no address: {word[:60]!r}")
        case ["B"]:
            return Entry("B")
        case ["F", word] if word in ENDINGS:
            return Entry("F", what=word)
        case ["F", word]:
            raise ValueError(f"no ending: {word[:60]!r}")
    raise ValueError(f"no entry: {line[:60]!r}")


def read_journal(data):
    lines = data.decode("latin-1").split("\n")
    found = HEADER.fullmatch(lines[0])
    if not found:
        raise Refusal(1, "no header 'kjrn 1 harts N steps L'")
    harts, limit = (int(it) for it in found.groups())
    if not 1 <= harts <= MOST_HARTS:
        raise Refusal(1, f"{harts} harts, where 1 to {MOST_HARTS} are allowed")
    if not 1 <= limit <= MOST_STEPS:
        raise Refusal(1, f"a limit of {limit} steps, where 1 to {MOST_STEPS} are allowed")
    if lines[-1] or len(lines) == 1:
        raise Refusal(len(lines), "the line lacks its line feed")
    entries = []
    for at, line in enumerate(lines[1:-1], 2):
        try:
            entries.append(read_entry(line, harts))
        except ValueError as why:
            raise Refusal(at, why) from None
    return Journal(harts, limit, entries)


class Journal(NamedTuple):
    harts: int
    limit: int
    entries: list

    def rows(self):
        machine = Machine(self.limit)
        return (machine.follow(index, entry) for index, entry in enumerate(self.entries))

    def count(self, kinds):
        return sum(it.kind in kinds for it in self.entries)

    def end(self):
        """The index of the ending, or the one past the last entry where there is none."""
        return next((at for at, it in enumerate(self.entries) if it.kind == "F"), len(self.entries))

    def has_ended(self):
        return self.end() < len(self.entries)

    def ending(self):
        """The ending, in the words of the transcript's last line."""
        return ENDINGS[self.entries[self.end()].what] if self.has_ended() else "plan end"


class Row(NamedTuple):
    """An entry with what holds around it."""
    index: int
    entry: Entry
    words: str
    objection: Optional[str]        # why it can't be legal here, where the journal alone shows that
    master: Optional[int]           # of the session that is open in this entry, the entry's own included
    late: tuple                     # of that session
    again: bool                     # the entry opens a session that is open
    planted: tuple                  # the places planted after it
    step_word: Optional[int]        # the address of the step word after it
    in_pass: bool                   # a step of the master within its session

    def planted_words(self):
        """What is planted after the entry: the places as ranges, and whether a step word stands."""
        ranges = []
        for it in self.planted:
            if ranges and ranges[-1][1] == it - 1:
                ranges[-1][1] = it
            else:
                ranges.append([it, it])
        places = ",".join(f"{low}" if low == high else f"{low}-{high}" for low, high in ranges)
        return " ".join([*([places] if places else []), *(["step"] if self.step_word is not None else [])])

    def actor(self):
        """The hart that makes the entry; None for an ending without a session."""
        return self.master if self.entry.hart is None else self.entry.hart

    def standing(self, hart):
        """How a hart stands to the session that is open in the entry: free, master, late or held."""
        if self.master is None:
            return "free"
        return "master" if hart == self.master else "late" if hart in self.late else "held"


class Machine:
    """What a journal alone tells of the machine; breakpoints, memory, traps and registers it doesn't tell."""

    def __init__(self, limit):
        self.limit, self.steps, self.lines = limit, 0, 0
        self.master, self.late = None, ()
        self.planted, self.step_word = set(), None
        self.called, self.opened, self.ended = set(), False, False

    def follow(self, index, entry):
        """The row of an entry. An entry that can't be legal is followed as far as it makes sense."""
        objection, again = self.objection(entry), entry.kind == "O" and self.master is not None
        in_pass = entry.kind == "S" and entry.hart == self.master
        if entry.kind == "O":
            self.master, self.late, self.opened = entry.hart, entry.late, True
        master, late = self.master, self.late
        self.change(entry)
        return Row(index, entry, self.words(entry, again, in_pass), objection, master, late, again,
                   tuple(sorted(self.planted)), self.step_word, in_pass)

    def change(self, entry):
        match entry.kind:
            case "S" | "I":
                self.steps += 1
            case "C":
                self.called.add(entry.hart)
            case "T":
                self.called.discard(entry.hart)
            case "L":
                self.lines += 1
            case "U":
                self.planted.discard(entry.what)
            case "P":
                self.planted.add(entry.what)
            case "A":
                self.step_word = entry.what
            case "B":
                self.step_word = None
            case "E":
                self.master, self.late = None, ()
            case "F":
                self.ended = True

    def words(self, entry, again, in_pass):
        """An entry in words; `self` is the machine after it."""
        hart, what = entry.hart, entry.what
        match entry.kind:
            case "S":
                where = " in its pass" if in_pass else ""
                return f"hart {hart} executes an instruction{where}: step {self.steps}"
            case "I":
                return f"hart {hart} takes its interrupt: step {self.steps}"
            case "C":
                return f"hart {hart} is called"
            case "T":
                return f"hart {hart} takes the call"
            case "O":
                late = f"late harts: {', '.join(map(str, entry.late))}" if entry.late else "no late harts"
                return f"hart {hart} opens {'its session again' if again else 'a session'}, {late}"
            case "L":
                return f"hart {hart} runs line {self.lines} of the script"
            case "U":
                return f"breakpoint {what} is taken out of memory"
            case "P":
                return f"breakpoint {what} is planted"
            case "A":
                return f"the step word is planted at {what:#x}"
            case "B":
                return "the step word is taken out of memory"
            case "E":
                return f"hart {hart} closes its session"
        return {"script": "the end: the script has no line left", "halted": "the end: every hart is halted",
                "limit": "the end: the limit of steps is reached"}[what]

    def objection(self, entry):
        """Why an entry can't be legal here, as far as the journal alone shows; None where it may be legal."""
        reasons = [(self.ended, "the run has ended"), *self.conditions(entry)]
        return next((why for holds, why in reasons if holds), None)

    def conditions(self, entry):
        """What would make an entry illegal here, each with whether it holds."""
        hart, session = entry.hart, self.master is not None
        own, held = session and hart == self.master, session and hart not in self.late
        held_back, no_session = (held, "the session holds this hart"), (not session, "no session is open")
        not_opened = not self.opened, "no session was opened yet"
        other = session and not own, f"the session is that of hart {self.master}"
        planted, step_word = (bool(self.planted), "a breakpoint is planted"), (self.step_word is not None, "the step word stands")
        at_limit = self.steps >= self.limit, "the limit of steps is reached"
        match entry.kind:
            case "S":
                return [not_opened] if own else [not_opened, held_back, at_limit]
            case "I":
                return [not_opened, held_back, at_limit]
            case "C":
                return [(session, "a session is open")]
            case "T":
                return [(hart not in self.called, "this hart wasn't called"), held_back]
            case "O":
                return [other, (hart in entry.late, "the hart would be late in its own session"),
                        (session and entry.late != self.late, "its session has other late harts"), step_word]
            case "L":
                return [no_session, other, planted, step_word]
            case "U":
                return [no_session, (entry.what not in self.planted, "this breakpoint isn't planted")]
            case "P":
                return [no_session, step_word, (entry.what in self.planted, "this breakpoint is planted already")]
            case "A":
                return [no_session, step_word]
            case "B":
                return [(self.step_word is None, "no step word stands")]
            case "E":
                return [no_session, other, step_word]
        return [no_session, planted] if entry.what == "script" else [(session, "a session is open")]


def printable(text):
    """The text with escapes in place of what a terminal would obey."""
    return "".join(it if it.isprintable() else it.encode("unicode_escape").decode() for it in text)


def read_transcript(journal, data):
    """The lines of a transcript, the last of which has to be the ending line of the journal's run."""
    lines = data.decode("utf-8", "backslashreplace").split("\n")
    if lines.pop():
        raise Refusal(len(lines) + 1, "the line lacks its line feed")
    lines = [printable(it) for it in lines]
    last = LAST_LINE.search(lines[-1]) if lines else None
    if not last:
        raise Refusal(max(len(lines), 1), "no ending line")
    ending, steps = journal.ending(), journal.count("SI")
    if (last[1], int(last[2])) != (ending, steps):
        raise Refusal(len(lines), f"the journal has '{ending} after {steps} steps'")
    return lines


def find_banner(lines, at, index, entry):
    """The banner of an Open entry, searched from a line on: where it begins, where it ends, its reason, its address."""
    for place in range(at, len(lines)):
        found = BANNER.search(lines[place])
        if found and int(found[1]) == entry.hart:
            late = f"Timed out waiting for secondary CPUs: {' '.join(map(str, entry.late))}"
            if not entry.late:
                return place, place + 1, found[2], found[3]
            if place > at and lines[place - 1].endswith(late):
                return place - 1, place + 1, found[2], found[3]
    late = f" with late harts {', '.join(map(str, entry.late))}" if entry.late else ""
    raise Refusal(at + 1, f"from here on no banner of hart {entry.hart}{late}, which entry {index} opens a session of")


class Prompt:
    """The prompt as the lines of the script set it, but for what macros do."""
    SET = re.compile(r"^[ \t]*set[ \t]+\"?PROMPT(?:=|\"?[ \t]+)\"?([^\"]*)\"?[ \t]*$")

    def __init__(self):
        self.text = "[%d]kdb> "

    def places(self, lines):
        """The lines that hold a prompt; none where it has too little text to be known by."""
        found = []
        for at, line in enumerate(lines):
            before, _, after = self.text.partition("%d")
            words = re.escape(before) + (r"\d+" + re.escape(after) if "%d" in self.text else "")
            here = re.search(words, line) if len(self.text.replace("%d", "").strip()) > 0 else None
            if here:
                found.append(at)
                given = self.SET.match(line[here.end():])
                self.text = given[1] if given else self.text
        return found


def lay_beside(journal, data):
    """The transcript's lines that stand beside each entry, by index, and reason and address of each Open entry.

    Banners stand beside Open entries, a prompt with what follows it beside its Line entry, console text with what stands
    before it, the ending line beside the ending, or past the last entry. Where the prompts of a session can't be told, all
    its lines stand beside its Open entry.
    """
    lines, entries = read_transcript(journal, data), journal.entries
    opens = [at for at, it in enumerate(entries) if it.kind == "O"]
    if not opens and len(lines) > 1:
        raise Refusal(1, "the journal opens no session")
    banners, at = [], 0
    for index in opens:
        banners.append(find_banner(lines, at, index, entries[index]))
        at = banners[-1][1]
    starts = [0, *(it[0] for it in banners[1:]), len(lines) - 1]
    beside, prompt = {}, Prompt()
    for number, index in enumerate(opens):
        until = opens[number + 1] if number + 1 < len(opens) else len(entries)
        speakers = [it for it in range(index, until) if entries[it].kind == "L" or entries[it] == Entry("F", what="script")]
        start, first, stop = starts[number], banners[number][1], starts[number + 1]
        places = [first + it for it in prompt.places(lines[first:stop])]
        if len(places) != len(speakers):
            speakers, places = [], []
        for who, low, high in zip([index, *speakers], [start, *places], [*places, stop]):
            beside[who] = lines[low:high]
    beside.setdefault(journal.end(), []).append(lines[-1])
    return beside, {index: it[2:] for index, it in zip(opens, banners)}
