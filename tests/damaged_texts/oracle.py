"""What muxsim has to answer to any bytes, by docs/FORMATS.md, docs/MUXSIM.md and docs/COMMANDS.md alone

It shares nothing with the program. A line is compared with the forms of FORMATS.md, which are spelled here as they are
there, and each kind of text says which lines may come next. The header of a text says of which version it is, and so which
forms and how many drivers it may have. A text is a string with a character for each byte."""
import functools
import re

DRIVERS, PROCESSES, COMMANDS = {1: 64, 2: 128}, 64, 100_000


def fits(pattern):
    return lambda word: re.fullmatch(pattern, word) is not None


def is_num(word, most=4_294_967_295):
    return re.fullmatch("0|[1-9][0-9]{0,9}", word) is not None and int(word) <= most


WORDS = {
    "NAME": fits("[a-z][a-z0-9]{0,7}"),
    "PROC": lambda word: is_num(word, 63),
    "HEX": fits("-|([0-9a-f][0-9a-f])+"),
    "KIND": fits("leaf|mux"),
    "SIDE": fits("w|r"),
    "SIDES": fits("r|w|rw"),
    "WHICH": lambda word: is_num(word) or word == "all"}
WORDS |= dict.fromkeys("NUM FD ARG MINOR ADDR ID SERIAL MINORS HIGH LOW MAX".split(), is_num)

DRIVER = "driver NAME KIND MINORS HIGH LOW MAX"
ASKED = ("clone NAME, open NAME MINOR, dup FD, close FD, exit, link FD ARG, plink FD ARG, unlink FD WHICH,"
         " punlink FD WHICH, bind FD ADDR, unbind FD, route FD ADDR ID, unroute FD ADDR, write FD ADDR HEX, read FD,"
         " flush FD SIDES, inject NAME MINOR ADDR HEX, transmit NAME MINOR, hangup NAME MINOR").split(", ")
REPLIES = ("fd FD MINOR, id ID, took SERIAL, got SERIAL ADDR HEX, done, EBADF fd, EINVAL below, EINVAL notmux,"
           " EINVAL already, EINVAL cycle, EAGAIN links, EINVAL id, ENXIO driver, ENXIO minor, EMFILE, EADDRINUSE,"
           " EINVAL unbound, EINVAL unrouted, EAGAIN full, EAGAIN empty, ERANGE, eof, ENXIO hangup").split(", ")
GROUPS = [["next ID SERIAL"], ["fd PROC FD NAME MINOR"],
          ["link ID NAME MINOR NAME MINOR link", "link ID NAME MINOR NAME MINOR plink"], ["bind NAME ADDR MINOR"],
          ["route NAME ADDR ID"], ["msg NAME MINOR SIDE SERIAL ADDR HEX"], ["full NAME MINOR SIDE"], ["hung NAME MINOR"]]
OF_VERSION_2 = ["hangup NAME MINOR", "eof", "ENXIO hangup", "hung NAME MINOR"]


def is_word(word, wanted):
    """Whether it is a word of that table, or the one that stands for itself."""
    return WORDS[wanted](word) if wanted in WORDS else word == wanted


def has_form(line, form):
    words, wanted = line.split(" "), form.split(" ")
    return len(words) == len(wanted) and all(map(is_word, words, wanted))


def has_one_of(line, forms, version):
    """Whether it has one of these forms, in a text of this version."""
    return any(has_form(line, form) for form in forms if version == 2 or form not in OF_VERSION_2)


@functools.cache
def is_driver(line):
    return has_form(line, DRIVER)


@functools.cache
def is_command(line, version):
    return has_one_of(line, ASKED, version)


@functools.cache
def is_reply(line, version):
    first, *serials = line.split(" ")
    return has_one_of(line, REPLIES, version) or first == "done" and all(map(is_num, serials))


@functools.cache
def is_entry(line, version):
    asked, between, reply = line.partition(" = ")
    process, _, command = asked.partition(" ")
    return between != "" and is_word(process, "PROC") and is_command(command, version) and is_reply(reply, version)


@functools.cache
def group_of(line, version):
    """The number of the group that the line below 'config' belongs to, or nothing."""
    return next((number for number, forms in enumerate(GROUPS) if has_one_of(line, forms, version)), None)


class Programs:
    """A programs text up to some line."""
    HEADERS = {"programs 1": 1, "programs 2": 2}

    def __init__(self):
        self.version, self.drivers, self.programs, self.commands = None, [], [], 0

    def take(self, line):
        """Takes one more line, or tells what is wrong with it."""
        if is_driver(line) and not self.programs:
            self.drivers.append(line)
            return "many" if len(self.drivers) > DRIVERS[self.version] else None
        if line == f"process {len(self.programs)}":
            self.programs.append([])
            return "many" if len(self.programs) > PROCESSES else None
        if is_command(line, self.version) and self.programs:
            self.programs[-1].append(line)
            self.commands += 1
            return "many" if self.commands > COMMANDS else None
        return "form"

    def may_end(self):
        return True


class Transcript:
    """A transcript text up to some line; 'view' has the lines below 'config'."""
    HEADERS = {"transcript 1": 1, "transcript 2": 2}

    def __init__(self):
        self.version, self.drivers, self.entries, self.view = None, [], [], None

    def take(self, line):
        """Takes one more line, or tells what is wrong with it."""
        if self.view is not None:
            return self.take_below(line)
        if is_driver(line) and not self.entries:
            self.drivers.append(line)
            return "many" if len(self.drivers) > DRIVERS[self.version] else None
        if is_entry(line, self.version):
            self.entries.append(line)
            return "many" if len(self.entries) > COMMANDS else None
        if line == "config":
            self.view = []
            return None
        return "form"

    def take_below(self, line):
        """The groups come in their order, and 'next' first and once."""
        group = group_of(line, self.version)
        allowed = range(max(1, group_of(self.view[-1], self.version)), len(GROUPS)) if self.view else [0]
        if group not in allowed:
            return "form"
        self.view.append(line)
        return None

    def may_end(self):
        return bool(self.view)


def read(text, kind):
    """What the text stands for, and the line and the cause of its fault, or nothing."""
    *whole, rest = text.split("\n")
    value = kind()
    for number, line in enumerate(whole, 1):
        if number == 1:
            value.version = kind.HEADERS.get(line)
            cause = None if value.version else "header"
        elif line == "end" and value.may_end():
            return value, ((number + 1, "trailing") if rest or number < len(whole) else None)
        else:
            cause = value.take(line)
        if cause:
            return value, (number, cause)
    return value, (len(whole) + 1, "cut")


def driver_fault(drivers):
    """The number of the first driver that can't be had, and why, or nothing."""
    names = []
    for number, line in enumerate(drivers):
        _, name, _, *numbers = line.split(" ")
        minors, high, low, longest = map(int, numbers)
        if not 1 <= minors <= 64:
            return f"driver {number} minors"
        if high > 4096 or low >= high:
            return f"driver {number} marks"
        if not 1 <= longest <= 1024:
            return f"driver {number} max"
        if name in names:
            return f"driver {number} same name"
        names.append(name)
    return None


def refusal(text, kind):
    """What the text stands for, and the status and the line on standard error that refuse it, or nothing."""
    value, fault = read(text, kind)
    if fault:
        return value, (3, "muxsim: line %d: %s\n" % fault)
    if fault := driver_fault(value.drivers):
        return value, (1, f"muxsim: refused: {fault}\n")
    return value, None


def holds(transcript, programs, in_turn):
    """Whether a run may write this: the version, the drivers, and each program's commands in order; in turn on one worker."""
    asked = [f"{process} {command}" for process, commands in enumerate(programs.programs) for command in commands]
    same = (transcript.version, transcript.drivers) == (programs.version, programs.drivers)
    questions = list(map(question, transcript.entries))
    if not in_turn:
        questions.sort(key=lambda one: int(one.partition(" ")[0]))
    return same and questions == asked


def question(entry):
    """The process and the command of an entry."""
    return entry.partition(" = ")[0]


def verdicts(transcript, known, verdict):
    """The verdicts that a transcript may get, where it is known that another one gets this one, not 'config differs'

    The drivers and the entries up to one decide which reply that one has to have, and all of them the configuration."""
    count, wrong = len(transcript.entries), len(known.entries) + 1
    if verdict.startswith("illegal "):
        wrong = int(verdict.split(" ")[1])
    if transcript.drivers != known.drivers:
        return illegal(1, count) | {f"legal {count}", "config differs"}
    same = agreeing(transcript.entries, known.entries)
    if same >= wrong:
        return {verdict}
    if same + 1 < wrong and same < count and question(transcript.entries[same]) == question(known.entries[same]):
        return illegal(same + 1, same + 1)
    if transcript.entries != known.entries:
        return illegal(same + 1, count) | {f"legal {count}", "config differs"}
    return {verdict} if transcript.view == known.view else {"config differs"}


def agreeing(entries, others):
    """With how many entries in common two histories begin."""
    pairs = enumerate(zip(entries, others))
    return next((number for number, (one, other) in pairs if one != other), min(len(entries), len(others)))


def illegal(first, last):
    return {f"illegal {number}" for number in range(first, last + 1)}
