"""muxsim for Python: live sessions, runs, checks, replays, traces, drawings and pages of steps, by the program `muxsim`.

    import muxsim

    with muxsim.Session(["ip mux 4 8 3 16", "eth leaf 2 8 3 16"]) as session:
        process = session.process(0)
        ip, eth = process.clone("ip"), process.clone("eth")
        print(process.link(ip.fd, eth.fd))          # 0 link 0 1 = id 1
        print(process.read(eth.fd).words)           # EINVAL below

    print(muxsim.check(muxsim.run(text)).words)     # legal 13

A refused command is not an error: its reply is a value of the class Refused. An invalid text, an invalid command, out of
memory and a program that fails are exceptions, all of them of the class Error.

The program is the one that the argument `program` names, else the one that the environment variable MUXSIM names, else
`muxsim` in PATH. This module needs only the standard library. Python 3.8 or later runs it.
"""
from __future__ import annotations

import errno
import os
import re
import shutil
import subprocess
import threading
from dataclasses import dataclass
from types import TracebackType
from typing import Iterable, List, NoReturn, Optional, Tuple, Type, TypeVar, Union

__version__ = "0.1.0"


class Error(Exception):
    """The base of all exceptions of this module."""


class ProgramNotFound(Error):
    """There is no program to run."""


class TextError(Error):
    """The text is refused at a line."""

    def __init__(self, line: int, cause: str, shown: str = "", explanation: str = "") -> None:
        super().__init__(f"line {line}: {cause}" + (f": {explanation}" if explanation else ""))
        self.line = line  #: the number of the line, from 1
        self.cause = cause  #: `header`, `form`, `many`, `cut` or `trailing`
        self.shown = shown  #: the line, as `muxsim run --explain` shows it
        self.explanation = explanation  #: the reason, as a sentence


class InputTooLong(Error):
    """The text, the driver table or the line has more than 16,777,216 bytes."""


class DriverError(Error):
    """A driver is not valid."""

    def __init__(self, driver: int, fault: str) -> None:
        super().__init__(f"driver {driver} {fault}")
        self.driver = driver  #: its number, from 0
        self.fault = fault  #: `minors`, `marks`, `max` or `same name`


class CommandError(Error):
    """The line is not a process with a command. Nothing has changed, and the session goes on."""

    def __init__(self, line: str) -> None:
        super().__init__(f"no command: {line}")
        self.line = line  #: the line


class HistoryFull(Error):
    """The session has 100,000 entries. Nothing has changed, and the session can still show them."""


class PastTheEnd(Error):
    """A replay is asked for more entries than the transcript has."""

    def __init__(self, entries: int) -> None:
        super().__init__(f"the transcript has {entries} entries")
        self.entries = entries  #: how many the transcript has


class LongPage(Error):
    """A page of the transcript's steps is over a limit: of 1,000 entries, or of 32 MiB."""

    def __init__(self, entries: int) -> None:
        super().__init__(f"a page has room for fewer than {entries} entries")
        self.entries = entries  #: a number of entries whose page is over the limit


class OutOfMemory(Error):
    """The program ran out of memory, or could not start a thread for a worker; the words of the exception say which.

    A session goes on as if the command had not come.
    """


class ProgramFailed(Error):
    """The program ended in another way, such as by a failed read or write, or by a signal."""

    def __init__(self, status: int, words: str) -> None:
        super().__init__(f"status {status}: {words}" if words else f"status {status}")
        self.status = status  #: its exit status; for a signal its number, negative
        self.words = words  #: its lines on standard error


@dataclass(frozen=True)
class Reply:
    """The reply to a command; true unless the command is refused."""

    entry: str  #: the line of the entry, such as `0 clone ip = fd 0 0`

    @property
    def words(self) -> str:
        """The words of the reply, such as `fd 0 0`."""
        return self.entry.split(" = ", 1)[1]

    def __str__(self) -> str:
        return self.entry


@dataclass(frozen=True)
class Opened(Reply):
    """`fd FD MINOR`: a new descriptor."""

    fd: int
    minor: int


@dataclass(frozen=True)
class Linked(Reply):
    """`id ID`: a new link."""

    id: int


@dataclass(frozen=True)
class Took(Reply):
    """`took SERIAL`: the message was accepted."""

    serial: int


@dataclass(frozen=True)
class Got(Reply):
    """`got SERIAL ADDR HEX`: a message was delivered."""

    serial: int
    address: int
    data: bytes


@dataclass(frozen=True)
class Done(Reply):
    """`done ..`: the command succeeded, and dropped the messages with these serials."""

    dropped: Tuple[int, ...]


@dataclass(frozen=True)
class EndOfFile(Reply):
    """`eof`: nothing is left to read, and the device has hung up."""


@dataclass(frozen=True)
class Refused(Reply):
    """A refusal: the command has changed nothing. It has no other attributes, so asking for one says why."""

    errno_name: str  #: such as `EINVAL`
    cause: str  #: the second word, such as `below`, or empty if the errno value has one cause only

    @property
    def errno(self) -> int:
        """The errno value on this system."""
        value: int = getattr(errno, self.errno_name)
        return value

    def __bool__(self) -> bool:
        return False

    def __getattr__(self, name: str) -> NoReturn:
        raise AttributeError(f"{self.__dict__.get('entry')}: a refusal has no '{name}'")


def reply(entry: str) -> Reply:
    """Parses the line of an entry, such as `0 clone ip = fd 0 0`."""
    kind, *words = entry.split(" = ", 1)[1].split(" ")
    if kind == "fd":
        return Opened(entry, int(words[0]), int(words[1]))
    if kind == "id":
        return Linked(entry, int(words[0]))
    if kind == "took":
        return Took(entry, int(words[0]))
    if kind == "got":
        return Got(entry, int(words[0]), int(words[1]), b"" if words[2] == "-" else bytes.fromhex(words[2]))
    if kind == "done":
        return Done(entry, tuple(map(int, words)))
    if kind == "eof":
        return EndOfFile(entry)
    return Refused(entry, kind, "".join(words))


Accepted = TypeVar("Accepted", bound=Reply)


class Process:
    """A process of a session. Each method performs one command and returns its reply."""

    def __init__(self, session: Session, number: int) -> None:
        self.session = session
        self.number = number

    def command(self, words: str) -> Reply:
        """Performs a command by its words, such as `clone ip`."""
        return self.session.perform(f"{self.number} {words}")

    def _do(self, words: str, kind: Type[Accepted]) -> Union[Accepted, Refused]:
        found = self.command(words)
        assert isinstance(found, (kind, Refused)), found.entry
        return found

    def clone(self, name: str) -> Union[Opened, Refused]:
        """Opens a new stream of a driver, on its lowest free minor."""
        return self._do(f"clone {name}", Opened)

    def open(self, name: str, minor: int) -> Union[Opened, Refused]:
        """Opens the stream of this minor."""
        return self._do(f"open {name} {minor}", Opened)

    def dup(self, fd: int) -> Union[Opened, Refused]:
        """Opens one more descriptor for the same stream."""
        return self._do(f"dup {fd}", Opened)

    def close(self, fd: int) -> Union[Done, Refused]:
        """Closes a descriptor."""
        return self._do(f"close {fd}", Done)

    def exit(self) -> Done:
        """Closes all descriptors of the process."""
        found = self.command("exit")
        assert isinstance(found, Done), found.entry
        return found

    def link(self, fd: int, lower: int) -> Union[Linked, Refused]:
        """Links the stream of `lower` below the driver of `fd`."""
        return self._do(f"link {fd} {lower}", Linked)

    def plink(self, fd: int, lower: int) -> Union[Linked, Refused]:
        """Links it persistently."""
        return self._do(f"plink {fd} {lower}", Linked)

    def unlink(self, fd: int, which: Union[int, str]) -> Union[Done, Refused]:
        """Removes the ordinary link with this id, or `"all"` of the stream."""
        return self._do(f"unlink {fd} {which}", Done)

    def punlink(self, fd: int, which: Union[int, str]) -> Union[Done, Refused]:
        """Removes the persistent link with this id, or `"all"` of the driver."""
        return self._do(f"punlink {fd} {which}", Done)

    def bind(self, fd: int, address: int) -> Union[Done, Refused]:
        """Binds the stream to an address."""
        return self._do(f"bind {fd} {address}", Done)

    def unbind(self, fd: int) -> Union[Done, Refused]:
        """Removes the binding of the stream."""
        return self._do(f"unbind {fd}", Done)

    def route(self, fd: int, address: int, link: int) -> Union[Done, Refused]:
        """Routes messages for an address down the link with this id."""
        return self._do(f"route {fd} {address} {link}", Done)

    def unroute(self, fd: int, address: int) -> Union[Done, Refused]:
        """Removes the route for an address."""
        return self._do(f"unroute {fd} {address}", Done)

    def write(self, fd: int, address: int, data: bytes) -> Union[Took, Refused]:
        """Writes a message."""
        return self._do(f"write {fd} {address} {_hex(data)}", Took)

    def read(self, fd: int) -> Union[Got, EndOfFile, Refused]:
        """Reads a message."""
        found = self.command(f"read {fd}")
        assert isinstance(found, (Got, EndOfFile, Refused)), found.entry
        return found

    def flush(self, fd: int, sides: str = "rw") -> Union[Done, Refused]:
        """Empties the sides `"r"`, `"w"` or `"rw"` of the stream."""
        return self._do(f"flush {fd} {sides}", Done)

    def inject(self, name: str, minor: int, address: int, data: bytes) -> Union[Took, Refused]:
        """Has the device bring a message."""
        return self._do(f"inject {name} {minor} {address} {_hex(data)}", Took)

    def transmit(self, name: str, minor: int) -> Union[Got, Refused]:
        """Has the device take a message."""
        return self._do(f"transmit {name} {minor}", Got)

    def hangup(self, name: str, minor: int) -> Union[Done, Refused]:
        """Has the device hang up. A session of version 1 has no such command."""
        return self._do(f"hangup {name} {minor}", Done)


class Session:
    """A live session over some drivers: `muxsim live` in a child process. Threads may share it.

    Each driver is the words of a driver line: `"ip mux 4 8 3 16"`. Use the session in a `with` statement, or close it.
    """

    def __init__(self, drivers: Iterable[str], version: int = 2, program: Optional[str] = None) -> None:
        table = [f"programs {version}", *(f"driver {driver}" for driver in drivers)]
        for line in table:
            if "\n" in line:
                raise CommandError(line)
        self._program = find_program(program)
        self._child = subprocess.Popen([self._program, "live"], stdin=subprocess.PIPE, stdout=subprocess.PIPE,
                                       stderr=subprocess.PIPE)
        self._turn = threading.Lock()
        self._over = False
        self._opening: List[str] = []
        self._entries: List[str] = []
        try:
            self._send("".join(f"{line}\n" for line in table) + "show\n")
            self._opening = [self._line() for _ in table]
            self._up_to("shown")
        except TextError:
            # `live` explains nothing, but a run refuses the same table at the same line, with an explanation.
            run("".join(f"{line}\n" for line in table) + "end\n", program=self._program)
            raise

    def __enter__(self) -> Session:
        return self

    def __exit__(self, kind: Optional[Type[BaseException]], error: Optional[BaseException],
                 trace: Optional[TracebackType]) -> None:
        if kind is None:
            self.close()
        elif not self._over:
            self._end()

    def process(self, number: int) -> Process:
        """Returns process `number`, from 0 to 63."""
        return Process(self, number)

    def perform(self, line: str) -> Reply:
        """Performs the command of a line, such as `0 clone ip`."""
        if "\n" in line or line in ("", "show", "end"):
            raise CommandError(line)
        with self._turn:
            self._send(f"{line}\n")
            answer = self._line()
            if answer == "? no command":
                raise CommandError(line)
            if answer == "? no memory":
                raise OutOfMemory(answer)
            if answer == "? history full":
                raise HistoryFull(answer)
            self._entries.append(answer)
        return reply(answer)

    def show(self) -> str:
        """Returns the lines of the configuration, from `config` on and without `end`."""
        with self._turn:
            return self._show()

    def transcript(self) -> str:
        """Returns the transcript of the session so far."""
        with self._turn:
            return "".join(f"{line}\n" for line in self._opening + self._entries) + self._show() + "end\n"

    def close(self) -> None:
        """Ends the session. If it has ended before, this does nothing."""
        with self._turn:
            if self._over:
                return
            self._send("end\n")
            self._up_to("end")
            status, words = self._end()
            if status != 0:
                raise _failure(status, words)

    def _show(self) -> str:
        self._send("show\n")
        return "".join(f"{line}\n" for line in self._up_to("shown"))

    def _send(self, text: str) -> None:
        if self._over:
            raise Error("the session is closed")
        assert self._child.stdin
        try:
            self._child.stdin.write(text.encode())
            self._child.stdin.flush()
        except BrokenPipeError:
            pass  # The program has ended; the next line that is read reports it.

    def _line(self) -> str:
        assert self._child.stdout
        line = self._child.stdout.readline()
        if not line.endswith(b"\n"):
            raise _failure(*self._end())
        return line[:-1].decode()

    def _up_to(self, last: str) -> List[str]:
        lines: List[str] = []
        line = self._line()
        while line != last:
            if line == "? no memory":
                raise OutOfMemory(line)
            lines.append(line)
            line = self._line()
        return lines

    def _end(self) -> Tuple[int, str]:
        """Waits for the end of the program; returns its status and its lines on standard error."""
        self._over = True
        _, words = self._child.communicate()
        return self._child.returncode, words.decode(errors="replace")


@dataclass(frozen=True)
class Difference:
    """The first line in which a transcript differs from its replay."""

    line: int  #: its number, from 1
    text: str  #: the line of the transcript
    replay: str  #: the line of the replay


@dataclass(frozen=True)
class Verdict:
    """The verdict on a transcript; true if it is legal."""

    words: str  #: `legal N`, `illegal K` or `config differs`
    difference: Optional[Difference] = None  #: unless it is legal

    @property
    def legal(self) -> bool:
        """Whether the transcript is legal."""
        return self.difference is None

    def __bool__(self) -> bool:
        return self.legal


def find_program(program: Optional[str] = None) -> str:
    """Returns the path of the program: `program`, else the environment variable MUXSIM, else `muxsim` in PATH."""
    name = program or os.environ.get("MUXSIM") or "muxsim"
    path = shutil.which(name)
    if path is None:
        raise ProgramNotFound(f"{name}: no such program; set MUXSIM or PATH, or give 'program'")
    return path


def run(text: str, workers: int = 1, program: Optional[str] = None) -> str:
    """Runs a programs text and returns its transcript."""
    return _output(["run", "--explain", "--workers", str(workers)], text, program)


def check(text: str, program: Optional[str] = None) -> Verdict:
    """Judges a transcript."""
    words, *explained = _output(["check", "--explain"], text, program).splitlines()
    if words.startswith("legal "):
        return Verdict(words)
    line, shown = explained[0].split(": ", 1)
    return Verdict(words, Difference(int(line.split(" ")[1]), shown, explained[1].split(": ", 1)[1]))


def replay(text: str, program: Optional[str] = None, at: Optional[int] = None) -> str:
    """Performs the commands of a transcript, or those of its first `at` entries, and returns the transcript they give."""
    return _output(["replay", "--explain", *([] if at is None else ["--at", str(at)])], text, program)


def trace(text: str, waits: bool = False, program: Optional[str] = None) -> str:
    """Performs the commands of a transcript and returns what each entry changes, and which messages wait and why.

    With `waits`, all waits are below each entry too. The lines that begin with two spaces are not of the transcript.
    """
    return _output(["trace", "--explain", *(["--waits"] if waits else [])], text, program)


def steps(text: str, program: Optional[str] = None) -> str:
    """Performs the commands of a transcript and returns an HTML page with a picture after each entry."""
    return _output(["draw", "--steps", "--explain"], text, program)


def draw(text: str, dot: bool = False, program: Optional[str] = None) -> str:
    """Draws the configuration of a transcript, as SVG or in the language of Graphviz."""
    return _output(["draw", "--explain", *(["--dot"] if dot else [])], text, program)


def _output(words: List[str], text: str, program: Optional[str]) -> str:
    """Runs the program and returns its output."""
    ran = subprocess.run([find_program(program), *words], input=text.encode(), stdout=subprocess.PIPE,
                         stderr=subprocess.PIPE, check=False)
    if ran.returncode == 0 or ran.returncode == 4 and words[0] == "check":
        return ran.stdout.decode()
    raise _failure(ran.returncode, ran.stderr.decode(errors="replace"))


def _failure(status: int, words: str) -> Error:
    """Returns the exception for an exit status and the lines on standard error."""
    if status == 3:
        if re.search(r"^muxsim: input too long$", words, re.M):
            return InputTooLong("the input is too long")
        found = re.search(r"^muxsim: line (\d+): (\w+)$(?:\nline \d+: (.*)\n(.*))?", words, re.M)
        if found:
            return TextError(int(found[1]), found[2], found[3] or "", found[4] or "")
    if status == 1:
        found = re.search(r"^muxsim: refused: no memory$(?:\n(.+))?", words, re.M)
        if found:
            return OutOfMemory(found[1] or "out of memory")
        found = re.search(r"^muxsim: refused: driver (\d+) (.*)$", words, re.M)
        if found:
            return DriverError(int(found[1]), found[2])
        found = re.search(r"^muxsim: refused: the transcript has (\d+) entries$", words, re.M)
        if found:
            return PastTheEnd(int(found[1]))
        found = re.search(r"^muxsim: refused: a page has room for fewer than (\d+) entries, see replay --at$", words, re.M)
        if found:
            return LongPage(int(found[1]))
    return ProgramFailed(status, words.strip())


def _hex(data: bytes) -> str:
    return data.hex() or "-"
