"""Texts made by hand that are wrong, or just not wrong, by one thing

A text is a string with a character for each byte."""

NUMBERS = ["", " 1", "1 ", "1 1", "1\r", "1\t", "\xb2", "9" * 400, "0" * 400] + (
    "0 1 9 10 15 16 63 64 65 4294967294 4294967295 4294967296 4294967305 10000000000 18446744073709551616 00 01 010"
    " 04294967295 +0 +1 -1 -0 - 1- 0x1 1e1 1_0 1,0 1. a all ALL al alls 1all =").split(" ")
NAMES = ["", " ip", "ip ", "i p", "ip\0", "ip\r", "\xe9", "i\xe9"] + (
    "a a0 z9 e eightlet ninelette a1234567 a12345678 Ip iP IP 9a 0 - _ i_p i-p i.p ip= all end config mux =").split(" ")
BYTES = ["", "aa bb", "aa\t", "ab" * 1024, "ab" * 1025, "ab" * 1024 + "a", "ab" * 1024 + "B"] + (
    "- -- aa AA aA Aa a aab aabb 00 0 g ag aa- -aa aa_ 0x 0xaa +a").split(" ")
SIDES = ["", "r w"] + "r w rw wr rr R W RW rww both - 0".split(" ")
MARKS = {"NUM": NUMBERS, "NAME": NAMES, "HEX": BYTES, "SIDES": SIDES}

IP = "driver ip mux 4 8 3 16"


def filled(*lines):
    """The lines, each with one number, one name, some bytes or a side in place of its mark."""
    marked = [(line, mark) for line in lines for mark in MARKS if mark in line]
    return [line.replace(mark, word) for line, mark in marked for word in MARKS[mark]]


def strange_bytes(line):
    """The line with each byte in place of its mark."""
    return [line.replace("BYTE", chr(number)) for number in range(256)]


def programs_text(lines, version=1):
    return "".join(f"{line}\n" for line in [f"programs {version}", *lines, "end"])


def transcript_text(lines, view, version=1):
    return "".join(f"{line}\n" for line in [f"transcript {version}", *lines, "config", *view, "end"])


def cut_in(text, number):
    """The text up to the end of a line, without its line feed."""
    return "".join(text.splitlines(True)[:number])[:-1]


def drivers(count):
    return [f"driver d{number} leaf 1 1 0 1" for number in range(count)]


def processes(count):
    return [f"process {number}" for number in range(count)]


def driver_lists():
    """Drivers at their limits and beyond, two that have a fault, and as many as may be and more."""
    rests = ["mux 64 4096 4095 1024", "leaf 1 1 0 1", "mux 65 4096 4095 1024", "mux 64 4097 4095 1024", "mux 0 0 0 0",
             "mux 1 0 0 0", "mux 1 1 0 0", "mux 64 4096 4096 1024", "mux 64 4096 4097 1024", "leaf 64 4096 0 1025",
             "leaf 4294967295 4294967295 4294967295 4294967295", "muxleaf 1 1 0 1", "Mux 1 1 0 1", "LEAF 1 1 0 1",
             "mu 1 1 0 1", "- 1 1 0 1", "mux 1 1 0", "mux 1 1 0 1 1"]
    lists = [[*before, f"driver x {rest}"] for rest in rests for before in [[], [IP]]]
    lists += [[line] for line in filled(
        "driver NAME mux 4 8 3 16", "driver x mux NUM 8 3 16", "driver x mux 4 NUM 3 16", "driver x leaf 4 8 NUM 16",
        "driver x leaf 4 8 3 NUM")]
    lists += [[IP, IP], [IP, "", IP], [IP, "driver ip leaf 0 1 0 1"]]
    lists += [["driver b leaf 1 1 1 1", "driver a leaf 0 1 0 1"]]
    lists += [drivers(count) for count in [63, 64, 65, 66]] + [drivers(63) + ["driver d0 leaf 1 1 0 1"]]
    lists += [drivers(64) + [line] for line in ["driver d0 leaf 1 1 0 1", "driver x leaf 1 1 0", "exit", "driver x"]]
    return lists


def longer_driver_lists():
    """More drivers than version 1 may have: as many as version 2 may have, and more."""
    lists = [drivers(count) for count in [64, 65, 66, 127, 128, 129, 130]] + [drivers(127) + ["driver d0 leaf 1 1 0 1"]]
    return lists + [drivers(128) + [line] for line in ["driver d0 leaf 1 1 0 1", "driver x leaf 1 1 0", "exit", "x"]]


def many(line):
    """As many of these lines as may be, one more and two more; and with another one behind the last that may be."""
    most = [line] * 100_000
    return [most, most + [line], most + [line, line], most + [f"{line} x"], most + [""]]


def programs():
    lists = driver_lists() + [drivers(64) + processes(64), drivers(65) + processes(65)]
    lists += [[*before, line] for before in [[IP], [IP, "process 0"]] for line in filled("process NUM")]
    lists += [processes(count) for count in [1, 63, 64, 65, 66]] + [[IP] + processes(count) for count in [64, 65]]
    lists += [processes(64) + [line] for line in ["exit", "process 63", "process 65", "process 064", IP]]
    lists += [["exit"], [IP, "exit", "process 0"], ["process 1"], ["process 0", IP], ["process 0", "process 0"]]
    lists += [["process 0", *commands] for commands in many("exit")]
    lists += [[IP, "process 0", line] for line in filled(
        "clone NAME", "open NAME 0", "open ip NUM", "dup NUM", "close NUM", "link NUM 0", "link 0 NUM", "plink NUM 0",
        "plink 0 NUM", "unlink NUM 1", "unlink 0 NUM", "punlink NUM 1", "punlink 0 NUM", "bind NUM 0", "bind 0 NUM",
        "unbind NUM", "route NUM 0 1", "route 0 NUM 1", "route 0 0 NUM", "unroute NUM 0", "unroute 0 NUM",
        "write NUM 0 aa", "write 0 NUM aa", "write 0 0 HEX", "read NUM", "flush NUM r", "flush 0 SIDES",
        "inject NAME 0 0 aa", "inject ip NUM 0 aa", "inject ip 0 NUM aa", "inject ip 0 0 HEX", "transmit NAME 0",
        "transmit ip NUM")]
    lists += [[IP, "process 0", line] for line in [
        "", "end", "exit 0", "exit ", "exi", "exits", "EXIT", "Exit", "programs 1", "config", "0 exit = done",
        "exit = done", "clone", "open ip", "link 0", "route 0 0", "write 0 0", "write 0", "flush 0", "unlink 0",
        "inject ip 0 0", IP]]
    lists += [[IP, "process 0", line] for line in strange_bytes("clone iBYTE") + strange_bytes("closeBYTE0")]
    texts = [programs_text(lines) for lines in lists] + ["programs 1\n", "programs 1", "programs 1\nend"]
    texts += [cut_in(programs_text(lines), 1 + len(lines)) for lines in [drivers(65), processes(65), many("exit")[1]]]
    texts += programs_of_both_versions() + ["programs 2\n", "programs 2", "programs 2\nend"]
    return dict.fromkeys(texts + headers(programs_text([])), "a text made by hand")


def programs_of_both_versions():
    """What version 2 has and version 1 has not, and a little of what both have, under each header."""
    lists = longer_driver_lists() + [drivers(128) + processes(64), drivers(129) + processes(65), processes(65)]
    lists += [[IP, "process 0", line] for line in filled("hangup NAME 0", "hangup ip NUM") + [
        "hangup", "hangup ip", "hangup ip 0 0", "Hangup ip 0", "hang ip 0", "hung ip 0", "eof", "ENXIO hangup", "exit",
        "write 0 5 AA"]]
    lists += [[IP, "hangup ip 0"], ["hangup ip 0"]]
    texts = [programs_text(lines, version) for lines in lists for version in [1, 2]]
    texts += [programs_text(["process 0", *commands], 2) for commands in many("exit")]
    return texts + [cut_in(programs_text(lines, 2), 1 + len(lines)) for lines in [drivers(65), drivers(129)]]


def headers(text):
    """The text with other numbers in its header."""
    return [text.replace("1", number, 1) for number in NUMBERS + "2 3 02 2. 11 12 21 22".split(" ") + ["2 ", " 2"]]


# A transcript that a check finds legal.
LEGAL = transcript_text([IP, "0 clone ip = fd 0 0"], ["next 1 1", "fd 0 0 ip 0"])


def transcripts():
    texts = [transcript_text(lines, ["next 1 1"]) for lines in histories()]
    texts += [transcript_text([IP, "0 clone ip = fd 0 0"], view) for view in views()]
    texts += [cut_in(transcript_text(lines, []), 1 + len(lines)) for lines in [drivers(65), many("0 exit = done")[1]]]
    texts += transcripts_of_both_versions()
    return dict.fromkeys(texts + headers(LEGAL), "a text made by hand")


def transcripts_of_both_versions():
    """What version 2 has and version 1 has not, and a little of what both have, under each header."""
    lists = longer_driver_lists() + [[IP, entry] for entry in filled("0 hangup NAME 0 = done", "0 hangup ip NUM = done") + [
        "0 exit = eof", "0 exit = eof 1", "0 exit = EOF", "0 exit = ENXIO hangup", "0 exit = EAGAIN hangup",
        "0 exit = ENXIO hangup 1", "0 exit = hangup", "0 hangup ip 0 = eof", "64 exit = eof", "0 hangup ip = done",
        "0 exit = done"]]
    texts = [transcript_text(lines, ["next 1 1"], version) for lines in lists for version in [1, 2]]
    below = filled("hung NAME 0", "hung ip NUM") + ["hung", "hung ip", "hung ip 0 w", "hangup ip 0", "Hung ip 0", "full ip 0"]
    groups = ["next 1 1", "fd 0 0 ip 0", "link 1 ip 0 ip 1 link", "bind ip 1 1", "route ip 1 1", "msg ip 0 w 1 1 aa",
              "full ip 0 w", "hung ip 0"]
    pairs = [pair for one in groups for pair in [[one, "hung ip 0"], ["hung ip 0", one]]]
    views = [["next 1 1", *lines] for lines in [[line] for line in below] + pairs] + [["hung ip 0"]]
    texts += [transcript_text([IP, "0 clone ip = fd 0 0"], view, version) for view in views for version in [1, 2]]
    texts += [transcript_text(lines, ["next 1 1"], 2) for lines in many("0 exit = done")]
    return texts + [cut_in(transcript_text(lines, [], 2), 1 + len(lines)) for lines in [drivers(65), drivers(129)]]


def histories():
    """Drivers and entries: each number, name, bytes and side of the replies and of some commands, and wrong replies."""
    lists = driver_lists() + many("0 exit = done")
    entries = filled(
        "NUM exit = done", "0 clone NAME = fd 0 0", "0 open ip NUM = ENXIO minor", "0 unlink 0 NUM = EBADF fd",
        "0 write 0 0 HEX = EBADF fd", "0 flush 0 SIDES = EBADF fd", "0 dup NUM = EBADF fd", "0 clone ip = fd NUM 0",
        "0 clone ip = fd 0 NUM", "0 clone ip = id NUM", "0 exit = took NUM", "0 exit = got NUM 0 aa",
        "0 exit = got 0 NUM aa", "0 exit = got 0 0 HEX", "0 exit = done NUM", "0 exit = done 1 NUM",
        "0 exit = done 2 1 NUM")
    entries += strange_bytes("0 clone iBYTE = ENXIO driver") + strange_bytes("0 close 0 =BYTEEBADF fd")
    entries += [f"0 clone ip = {reply}" for reply in [
        "", "=", "done ", "done done", "Done", "DONE", "done all", "EBADF", "EBADF  fd", "EBADF FD", "ebadf fd",
        "EINVAL", "EINVAL fd", "EINVAL minor", "EINVAL below already", "EAGAIN", "EAGAIN id", "ENXIO", "ENXIO full",
        "EMFILE fd", "EMFILE ", "EADDRINUSE 1", "ERANGE 1", "EPERM", "fd", "fd 0", "fd 0 0 0", "id", "id 1 1", "took",
        "got 1", "got 1 1", "got 1 1 aa aa", "links", "notmux", "cycle = cycle", "done = done"]]
    entries += ["", "exit", "exit = done", "0 exit", "0 exit done", "0 exit=done", "0 = done", "= done", " = done", "=",
                "0", "0 0 exit = done", "process 0", "config x", "end", "next 1 1", "fd 0 0 ip 0", "0 clone = fd 0 0",
                "0 clone ip ip = fd 0 0", "0  exit = done", "0 exit  = done"]
    lists += [[IP, entry] for entry in entries]
    wrong = [[IP], ["config", IP], ["config", "0 exit = done"], ["config", "config"]]
    return lists + [["0 exit = done", *lines] for lines in wrong]


def views():
    """The lines below 'config': each number, name, bytes and side of each line, and the groups in any order."""
    ends = ["NUM ip 0 ip 1", "1 NAME 0 ip 1", "1 ip NUM ip 1", "1 ip 0 NAME 1", "1 ip 0 ip NUM"]
    below = filled(
        *(f"link {end} {kind}" for end in ends for kind in ["link", "plink"]),
        "fd NUM 0 ip 0", "fd 0 NUM ip 0", "fd 0 0 NAME 0", "fd 0 0 ip NUM", "bind NAME 1 0", "bind ip NUM 0",
        "bind ip 1 NUM", "route NAME 1 1", "route ip NUM 1", "route ip 1 NUM",
        "msg NAME 0 w 1 1 aa", "msg ip NUM w 1 1 aa", "msg ip 0 SIDES 1 1 aa", "msg ip 0 r NUM 1 aa",
        "msg ip 0 w 1 NUM aa", "msg ip 0 w 1 1 HEX", "full NAME 0 w", "full ip NUM w", "full ip 0 SIDES")
    below += ["", "next 1 1", "next 2 2", "config", IP, "0 exit = done", "transcript 1", "fd 0 0 ip", "bind ip 0",
              "link 1 ip 0 ip 1", "link 1 ip 0 ip 1 LINK", "link 1 ip 0 ip 1 link link", "link 1 ip 0 ip 1 unlink",
              "route ip 0", "msg ip 0 w 1 1", "full ip 0"]
    groups = ["next 1 1", "fd 0 0 ip 0", "link 1 ip 0 ip 1 link", "link 1 ip 0 ip 1 plink", "bind ip 1 1",
              "route ip 1 1", "msg ip 0 w 1 1 aa", "full ip 0 w"]
    alone = filled("next NUM 1", "next 1 NUM") + ["", "next 1", "next 1 1 1", "next", *groups]
    lists = [[], *([line] for line in alone)] + [["next 1 1", line] for line in below]
    return lists + [["next 1 1", one, other] for one in groups for other in groups]
