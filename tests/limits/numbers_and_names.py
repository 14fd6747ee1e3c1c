"""Numbers up to the greatest that a text can spell, and names up to the longest."""
from cases import judges, programs_text, refuses_check, refuses_run, row, text_of, transcript_text

JOINED = ["ip mux 4 8 3 16", "eth leaf 2 8 3 16"]
GREATEST = "4294967295"
NO_NUMBERS = ["4294967296", "18446744073709551616", "04294967295", "+4294967295", "4294967295 ", "0x0", "42949672950"]

# Each command with the greatest number N at each of its places, and its reply.
ENTRIES = """clone ip = fd 0 0
clone eth = fd 1 0
open ip N = ENXIO minor
dup N = EBADF fd
link 0 1 = id 1
close N = EBADF fd
link N 1 = EBADF fd
link 0 N = EBADF fd
plink N 1 = EBADF fd
plink 0 N = EBADF fd
unlink N 1 = EBADF fd
unlink N all = EBADF fd
unlink 0 N = EINVAL id
punlink N 1 = EBADF fd
punlink N all = EBADF fd
punlink 0 N = EINVAL id
bind N 5 = EBADF fd
bind 0 N = done
unbind N = EBADF fd
route N 5 1 = EBADF fd
route 0 5 N = EINVAL id
route 0 N 1 = done
write N 5 aa = EBADF fd
write 0 N aa = took 1
transmit eth N = ENXIO minor
transmit eth 0 = got 1 N aa
inject eth N 5 aa = ENXIO minor
inject eth 0 N bb = took 2
read N = EBADF fd
read 0 = got 2 N bb
write 0 N cc = took 3
flush N rw = EBADF fd
unroute N 5 = EBADF fd
unroute 0 N = done
unroute 0 N = EINVAL unrouted
write 0 N dd = took 4""".splitlines()

# The same of the command that version 2 has alone.
HANGUPS = ["clone eth = fd 0 0", "hangup eth N = ENXIO minor", "hangup eth 0 = done", "read 0 = eof"]

SHOWN = ["next 2 5", "fd 0 0 ip 0", "fd 0 1 eth 0", "link 1 ip 0 eth 0 link", "bind ip N 0", "msg ip 0 w 4 N dd",
         "msg eth 0 w 3 N cc"]


def with_greatest(line):
    """The line with the greatest number in place of N, which stands alone."""
    return " ".join(GREATEST if word == "N" else word for word in line.split(" "))


def numbers():
    """The greatest number at each place of each command; what is greater, or no number, is ill-formed there."""
    row("the greatest number in each command", JOINED, [[with_greatest(line) for line in ENTRIES]],
        [with_greatest(line) for line in SHOWN])
    row("the greatest number in a hangup", JOINED, [[with_greatest(line) for line in HANGUPS]],
        ["next 1 1", "fd 0 0 eth 0", "hung eth 0"], [2])
    for number in NO_NUMBERS:
        refuses_run(f"hangup of {number}", programs_text(JOINED, [[f"hangup eth {number}"]], 2), "line 5: form")
    commands = {line.partition(" = ")[0] for line in ENTRIES}
    for command in sorted(command for command in commands if "N" in command):
        for number in NO_NUMBERS:
            line = command.replace("N", number)
            refuses_run(line, programs_text(JOINED, [[line]]), "line 5: form")
    for place in range(4):
        four = ["4", "8", "3", "16"]
        four[place] = "4294967296"
        refuses_run(f"driver of {four}", programs_text([f"ip mux {' '.join(four)}"], []), "line 2: form")
    refuses_run("process 4294967296", text_of(["programs 1", "process 4294967296", "end"]), "line 2: form")


REPLIES = ["fd N 0", "fd 0 N", "id N", "took N", "got N 5 aa", "got 1 N aa", "done N", "done 1 N"]
GROUPS = ["next N 1", "next 1 N", "next 1 1\nfd 0 N ip 0", "next 1 1\nfd 0 0 ip N",
          "next 1 1\nlink N ip 0 eth 0 link", "next 1 1\nlink 1 ip N eth 0 link", "next 1 1\nlink 1 ip 0 eth N plink",
          "next 1 1\nbind ip N 0", "next 1 1\nbind ip 5 N", "next 1 1\nroute ip N 1", "next 1 1\nroute ip 5 N",
          "next 1 1\nmsg ip N w 1 5 aa", "next 1 1\nmsg ip 0 r N 5 aa", "next 1 1\nmsg ip 0 w 1 N aa",
          "next 1 1\nfull ip N r"]


def transcripts():
    """The greatest number at each place of a reply and of a line below 'config', and what is greater."""
    for reply in REPLIES:
        for number, fault in [(GREATEST, None), ("4294967296", "line 4: form"), ("18446744073709551617", "line 4: form")]:
            text = transcript_text(JOINED, [f"0 close 0 = {reply.replace('N', number)}"], ["next 1 1"])
            if fault:
                refuses_check(f"{reply} of {number}", text, fault)
            else:
                judges(f"{reply} of {number}", text, "illegal 1")
    for group in GROUPS:
        line = 5 + group.count("\n")
        for number in [GREATEST, "4294967296", "18446744073709551617"]:
            text = transcript_text(JOINED, [], group.replace("N", number).splitlines())
            if number == GREATEST:
                judges(f"{group} of {number}", text, "config differs")
            else:
                refuses_check(f"{group} of {number}", text, f"line {line}: form")
    judges("hung of the greatest", transcript_text(JOINED, [], ["next 1 1", f"hung eth {GREATEST}"], 2), "config differs")
    refuses_check("hung of more", transcript_text(JOINED, [], ["next 1 1", "hung eth 4294967296"], 2), "line 6: form")


def judged():
    """An entry with the greatest numbers, and checks of texts that are wrong by one number or word beside it."""
    entry = with_greatest("0 unlink N N = EBADF fd")
    judges("an entry with the greatest numbers", transcript_text([], [entry], ["next 1 1"]), "legal 1")
    judges("another next serial", transcript_text([], [entry], ["next 1 2"]), "config differs")
    judges("another next id", transcript_text([], [entry], ["next 2 1"]), "config differs")
    judges("a reply of another command", transcript_text([], ["0 close 0 = id 5"], ["next 1 1"]), "illegal 1")
    transcript = transcript_text(["ip mux 0 8 3 16"], [entry], ["next 1 1"])
    refuses_check("a driver that can't be had, before an entry", transcript, "refused: driver 0 minors", 1)


def names():
    """Names of 1 and of 8 letters and digits, in each place; of nine, and with a digit first, ill-formed there."""
    longest = ["abcdefgh mux 4 8 3 16", "z9999999 leaf 2 8 3 16", "a leaf 1 1 0 1"]
    row("names of 8", longest,
        [["clone abcdefgh = fd 0 0", "open z9999999 1 = fd 1 1", "clone a = fd 2 0", "clone abcdefg = ENXIO driver",
          "clone b = ENXIO driver", "link 0 1 = id 1", "bind 0 5 = done", "route 0 5 1 = done",
          "write 0 6 aa = took 1", "inject a 0 5 bb = took 2", "transmit a 0 = EAGAIN empty"]],
        ["next 2 3", "fd 0 0 abcdefgh 0", "fd 0 1 z9999999 1", "fd 0 2 a 0", "link 1 abcdefgh 0 z9999999 1 link",
         "bind abcdefgh 5 0", "route abcdefgh 5 1", "msg abcdefgh 0 w 1 6 aa", "msg a 0 r 2 5 bb", "full a 0 r"])
    for name in ["abcdefghi", "z99999999", "9abcdefg", "0", "Abcdefgh", "abcdefgH", "abc-efgh", "abcdefgh\0", ""]:
        refuses_run(f"driver {name}", programs_text([f"{name} mux 4 8 3 16"], []), "line 2: form")
        refuses_check(f"driver {name}", transcript_text([f"{name} mux 4 8 3 16"], [], ["next 1 1"]), "line 2: form")
        for command in ["clone NAME", "open NAME 0", "inject NAME 0 5 aa", "transmit NAME 0"]:
            refuses_run(f"{command} of {name}", programs_text(JOINED, [[command.replace("NAME", name)]]), "line 5: form")
        refuses_run(f"hangup of {name}", programs_text(JOINED, [[f"hangup {name} 0"]], 2), "line 5: form")
        refuses_check(f"hung of {name}", transcript_text(JOINED, [], ["next 1 1", f"hung {name} 0"], 2), "line 6: form")
        refuses_check(f"fd of {name}", transcript_text(JOINED, [], ["next 1 1", f"fd 0 0 {name} 0"]), "line 6: form")
