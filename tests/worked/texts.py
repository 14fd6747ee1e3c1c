"""Texts, typed in from the rules, and what the program writes of them

A text is a string with a character for each byte."""

# Two processes, each with a stream of its own.
TWO_PROCESSES = """\
transcript 1
driver ip mux 4 8 3 16
0 clone ip = fd 0 0
1 clone ip = fd 0 1
config
next 1 1
fd 0 0 ip 0
fd 1 0 ip 1
end
"""

# The same with another reply to the second command.
WRONG_REPLY = """\
transcript 1
driver ip mux 4 8 3 16
0 clone ip = fd 0 0
1 clone ip = fd 0 2
config
next 1 1
fd 0 0 ip 0
fd 1 0 ip 1
end
"""

# The same with another minor in the configuration.
OTHER_CONFIGURATION = """\
transcript 1
driver ip mux 4 8 3 16
0 clone ip = fd 0 0
1 clone ip = fd 0 1
config
next 1 1
fd 0 0 ip 0
fd 1 0 ip 2
end
"""

# Messages on both sides of a link, until its queues are full and one has been drained.
MARKS_ACROSS_THE_JOIN = """\
transcript 1
driver ip mux 4 8 3 16
driver eth leaf 2 8 3 16
0 clone ip = fd 0 0
0 clone eth = fd 1 0
0 link 0 1 = id 1
0 route 0 5 1 = done
0 write 0 5 00000001 = took 1
0 write 0 5 00000002 = took 2
0 write 0 5 00000003 = took 3
0 write 0 5 00000004 = took 4
0 write 0 5 00000005 = EAGAIN full
0 transmit eth 0 = got 1 5 00000001
0 write 0 5 00000005 = EAGAIN full
0 transmit eth 0 = got 2 5 00000002
0 write 0 5 00000005 = took 5
config
next 2 6
fd 0 0 ip 0
fd 0 1 eth 0
link 1 ip 0 eth 0 link
route ip 5 1
msg ip 0 w 5 5 00000005
msg eth 0 w 3 5 00000003
msg eth 0 w 4 5 00000004
full eth 0 w
end
"""

# A device that hangs up, and a stream that stays hung up below a link.
HANGUP_END_OF_FILE = """\
transcript 2
driver ip mux 4 8 3 16
driver eth leaf 2 8 3 16
0 clone eth = fd 0 0
0 inject eth 0 9 aa = took 1
0 hangup eth 0 = done
0 hangup eth 0 = done
0 read 0 = got 1 9 aa
0 read 0 = eof
0 clone ip = fd 1 0
0 plink 1 0 = id 1
0 read 0 = EINVAL below
config
next 2 2
fd 0 0 eth 0
fd 0 1 ip 0
link 1 ip 0 eth 0 plink
hung eth 0
end
"""

# The programs of that history.
HANGUPS = """\
programs 2
driver ip mux 4 8 3 16
driver eth leaf 2 8 3 16
process 0
clone eth
inject eth 0 9 aa
hangup eth 0
hangup eth 0
read 0
read 0
clone ip
plink 1 0
read 0
end
"""

# Two opens, a close, and an open that gets what was closed.
OPENS_AND_CLOSES = """\
programs 1
driver ip mux 4 8 3 16
process 0
clone ip
clone ip
close 0
clone ip
end
"""

# The transcript of a run of them.
OPENED_AND_CLOSED = """\
transcript 1
driver ip mux 4 8 3 16
0 clone ip = fd 0 0
0 clone ip = fd 1 1
0 close 0 = done
0 clone ip = fd 0 0
config
next 1 1
fd 0 0 ip 0
fd 0 1 ip 1
end
"""

# Two processes take turns, and get other replies than these.
IN_TURN = """\
transcript 1
driver ip mux 2 8 3 16
driver eth leaf 1 8 3 16
1 clone ip = fd 0 7
0 clone ip = EMFILE
0 clone eth = done 1 2
1 clone ip = EBADF fd
0 link 0 1 = id 9
1 exit = got 1 2 ff
0 route 0 5 1 = EINVAL id
1 clone ip = took 4294967295
1 write 0 5 a1 = EAGAIN full
config
next 9 9
fd 63 4294967295 tr 7
end
"""

# The replies that they get.
IN_TURN_REPLAYED = """\
transcript 1
driver ip mux 2 8 3 16
driver eth leaf 1 8 3 16
1 clone ip = fd 0 0
0 clone ip = fd 0 1
0 clone eth = fd 1 0
1 clone ip = ENXIO minor
0 link 0 1 = id 1
1 exit = done
0 route 0 5 1 = done
1 clone ip = fd 0 0
1 write 0 5 a1 = took 1
config
next 2 2
fd 0 0 ip 1
fd 0 1 eth 0
fd 1 0 ip 0
link 1 ip 1 eth 0 link
route ip 5 1
msg eth 0 w 1 5 a1
end
"""

# That, for Graphviz.
IN_TURN_IN_DOT = """\
strict digraph muxsim {
  graph [rankdir=TB nodesep=0.2 fontname="sans-serif"];
  node [shape=record fontname="sans-serif" fontsize=10 label="{\\N|{<write>write|<read>read}}"];
  edge [dir=none color=gray fontname="sans-serif" fontsize=10];
  subgraph "cluster ip" { "ip" [shape=box label="ip mux\\nminors 2, longest 16\\nhigh 8, low 3"] }
  subgraph "cluster eth" { "eth" [shape=box label="eth leaf\\nminors 1, longest 16\\nhigh 8, low 3"] }
  subgraph "cluster eth" { "eth 0" -> "eth" } "ip" -> "eth 0" [color=steelblue label="link 1 ordinary\\nby ip 1"]
  subgraph "cluster ip" { "ip" -> "route:ip:5" [style=dotted]; "route:ip:5" [shape=plain label="route 5 by link 1"] }
  subgraph "cluster ip" { "ip 1" -> "ip" } "fd:0:0" -> "ip 1"; "fd:0:0" [shape=plain label="process 0 fd 0"]
  subgraph "cluster eth" { "eth 0" -> "eth" } "fd:0:1" -> "eth 0"; "fd:0:1" [shape=plain label="process 0 fd 1"]
  subgraph "cluster ip" { "ip 0" -> "ip" } "fd:1:0" -> "ip 0"; "fd:1:0" [shape=plain label="process 1 fd 0"]
  subgraph "cluster eth" { "eth 0" -> "eth" } "msg:1" -> "eth 0":write; "msg:1" [shape=note label="message 1 to 5, 1 B"]
  subgraph "cluster eth" { "eth 0" -> "eth" } "queue:eth:0:w" -> "eth 0":write; "queue:eth:0:w" [shape=plain label="write 1 of 8, low 3"]
}
"""

# A live session with each kind of line.
LINES = """\
programs 1
driver ip mux 4 8 3 16
driver eth leaf 2 8 3 16
show
0 clone ip
64 exit
0 clone eth

0 close 7
driver tty leaf 1 8 3 16
0 hangup eth 0
0 link 0 1
SHOW
end
rest"""

# The answers to them.
ANSWERS = """\
transcript 1
driver ip mux 4 8 3 16
driver eth leaf 2 8 3 16
config
next 1 1
shown
0 clone ip = fd 0 0
? no command
0 clone eth = fd 1 0
config
next 1 1
fd 0 0 ip 0
fd 0 1 eth 0
shown
0 close 7 = EBADF fd
? no command
? no command
0 link 0 1 = id 1
? no command
config
next 2 1
fd 0 0 ip 0
fd 0 1 eth 0
link 1 ip 0 eth 0 link
end
"""

# Transcripts, the verdict of a check, and the status.
VERDICTS = [
    (TWO_PROCESSES, "legal 2\n", 0),
    (MARKS_ACROSS_THE_JOIN, "legal 13\n", 0),
    (HANGUP_END_OF_FILE, "legal 9\n", 0),
    ("""\
transcript 1
config
next 1 1
end
""",
     "legal 0\n",
     0),
    ("""\
transcript 1
driver ip mux 4 8 3 16
driver eth leaf 2 8 3 16
0 clone ip = fd 0 0
1 clone eth = fd 0 0
config
next 1 1
fd 0 0 ip 0
fd 1 0 eth 0
end
""",
     "legal 2\n",
     0),
    ("""\
transcript 1
driver ip mux 4 8 3 16
driver eth leaf 2 8 3 16
1 clone eth = fd 0 0
0 clone ip = fd 0 0
config
next 1 1
fd 0 0 ip 0
fd 1 0 eth 0
end
""",
     "legal 2\n",
     0),
    (WRONG_REPLY, "illegal 2\n", 4),
    ("""\
transcript 1
driver ip mux 4 8 3 16
1 clone ip = fd 0 1
0 clone ip = fd 0 0
config
next 1 1
fd 0 0 ip 0
fd 1 0 ip 1
end
""",
     "illegal 1\n",
     4),
    (OTHER_CONFIGURATION, "config differs\n", 4),
    ("""\
transcript 1
0 exit = done
config
next 1 2
end
""",
     "config differs\n",
     4),
    ("""\
transcript 2
0 exit = done
0 exit = eof
config
next 1 1
end
""",
     "illegal 2\n",
     4),
    ("""\
transcript 2
driver eth leaf 2 8 3 16
0 clone eth = fd 0 0
config
next 1 1
fd 0 0 eth 0
hung eth 0
end
""",
     "config differs\n",
     4),
    ("""\
transcript 1
0 exit = done
0 exit = done 1
0 exit = EMFILE
config
next 2 1
end
""",
     "illegal 2\n",
     4),
]

# Texts that are not transcripts to any job that reads one, and the line that says so.
NO_TRANSCRIPTS = [
    ("", "line 1: cut"),
    ("""\
programs 1
end
""",
     "line 1: header"),
    ("""\
transcript 1
driver ip mux 4 8 3 16
0 clone ip = fd 0 0
1 clone""",
     "line 4: cut"),
    ("""\
transcript 1
0 exit = eof
config
next 1 1
end
""",
     "line 2: form"),
    ("""\
transcript 3
config
next 1 1
end
""",
     "line 1: header"),
    ("""\
transcript 1
64 exit = done
config
next 1 1
end
""",
     "line 2: form"),
    ("""\
transcript 1
0 exit = done
config
end
""",
     "line 4: form"),
    ("""\
transcript 1
config
next 1 1
end

""",
     "line 5: trailing"),
]

# Transcripts with invalid drivers, whatever the entries say, and the line that names the driver.
NO_DRIVERS = [
    ("""\
transcript 1
driver ip mux 4 8 8 16
0 exit = EMFILE
config
next 9 9
end
""",
     "refused: driver 0 marks"),
    ("""\
transcript 1
driver ip mux 4 8 3 16
driver ip leaf 1 1 0 1
config
next 1 1
end
""",
     "refused: driver 1 same name"),
]

# Programs, and the transcript of a run on one worker.
RUN = [
    (OPENS_AND_CLOSES, OPENED_AND_CLOSED),
    ("""\
programs 1
end
""",
     """\
transcript 1
config
next 1 1
end
"""),
    ("""\
programs 1
driver ip mux 64 4096 4095 1024
end
""",
     """\
transcript 1
driver ip mux 64 4096 4095 1024
config
next 1 1
end
"""),
    ("""\
programs 1
driver ip mux 2 8 3 16
driver eth leaf 1 4 0 2
process 0
clone ip
clone eth
process 1
open ip 0
open ip 2
clone eth
clone tr
dup 1
process 2
end
""",
     """\
transcript 1
driver ip mux 2 8 3 16
driver eth leaf 1 4 0 2
0 clone ip = fd 0 0
0 clone eth = fd 1 0
1 open ip 0 = fd 0 0
1 open ip 2 = ENXIO minor
1 clone eth = ENXIO minor
1 clone tr = ENXIO driver
1 dup 1 = EBADF fd
config
next 1 1
fd 0 0 ip 0
fd 0 1 eth 0
fd 1 0 ip 0
end
"""),
    # The descriptor table is filled.
    ("""\
programs 1
driver ip mux 64 8 3 16
process 0
open ip 0
open ip 0
open ip 0
open ip 0
open ip 0
open ip 0
open ip 0
open ip 0
open ip 0
open ip 0
open ip 0
open ip 0
open ip 0
open ip 0
open ip 0
open ip 0
open ip 0
clone ip
dup 15
dup 16
exit
end
""",
     """\
transcript 1
driver ip mux 64 8 3 16
0 open ip 0 = fd 0 0
0 open ip 0 = fd 1 0
0 open ip 0 = fd 2 0
0 open ip 0 = fd 3 0
0 open ip 0 = fd 4 0
0 open ip 0 = fd 5 0
0 open ip 0 = fd 6 0
0 open ip 0 = fd 7 0
0 open ip 0 = fd 8 0
0 open ip 0 = fd 9 0
0 open ip 0 = fd 10 0
0 open ip 0 = fd 11 0
0 open ip 0 = fd 12 0
0 open ip 0 = fd 13 0
0 open ip 0 = fd 14 0
0 open ip 0 = fd 15 0
0 open ip 0 = EMFILE
0 clone ip = EMFILE
0 dup 15 = EMFILE
0 dup 16 = EBADF fd
0 exit = done
config
next 1 1
end
"""),
]

# The programs of hangups, and one with no command.
HANGUPS_AND_NOTHING = HANGUPS.replace("end\n", "process 1\nend\n")

# Programs of which only one history can come, however many workers there are, and its transcript.
ONE_HISTORY = [
    ("""\
programs 1
driver ip mux 4 8 3 16
end
""",
     """\
transcript 1
driver ip mux 4 8 3 16
config
next 1 1
end
"""),
    ("""\
programs 1
driver ip mux 4 8 3 16
process 0
clone ip
clone ip
close 0
end
""",
     """\
transcript 1
driver ip mux 4 8 3 16
0 clone ip = fd 0 0
0 clone ip = fd 1 1
0 close 0 = done
config
next 1 1
fd 0 1 ip 1
end
"""),
    ("""\
programs 1
driver ip mux 4 8 3 16
process 0
process 1
clone ip
clone eth
process 2
end
""",
     """\
transcript 1
driver ip mux 4 8 3 16
1 clone ip = fd 0 0
1 clone eth = ENXIO driver
config
next 1 1
fd 1 0 ip 0
end
"""),
    (HANGUPS_AND_NOTHING, HANGUP_END_OF_FILE),
]

# Programs with invalid drivers, and the line that names the driver.
NOT_RUN = [
    ("""\
programs 1
driver ip mux 0 8 3 16
process 0
clone ip
end
""",
     "refused: driver 0 minors"),
    ("""\
programs 1
driver ip mux 65 8 8 0
process 0
clone ip
end
""",
     "refused: driver 0 minors"),
    ("""\
programs 1
driver ip mux 4 8 8 16
process 0
clone ip
end
""",
     "refused: driver 0 marks"),
    ("""\
programs 1
driver ip mux 4 4097 3 16
process 0
clone ip
end
""",
     "refused: driver 0 marks"),
    ("""\
programs 1
driver ip mux 4 8 3 0
process 0
clone ip
end
""",
     "refused: driver 0 max"),
    ("""\
programs 1
driver ip mux 4 8 3 1025
process 0
clone ip
end
""",
     "refused: driver 0 max"),
    ("""\
programs 1
driver ip mux 4 8 3 16
driver ip leaf 1 1 0 1
process 0
clone ip
end
""",
     "refused: driver 1 same name"),
]

# Transcripts, and what their commands give, whatever the replies were.
REPLAYED = [
    (IN_TURN, IN_TURN_REPLAYED),
    (WRONG_REPLY, TWO_PROCESSES),
    (OTHER_CONFIGURATION, TWO_PROCESSES),
    ("""\
transcript 2
0 exit = eof
0 exit = ENXIO hangup
config
next 7 7
hung eth 0
end
""",
     """\
transcript 2
0 exit = done
0 exit = done
config
next 1 1
end
"""),
    ("""\
transcript 2
driver eth leaf 2 8 3 16
0 clone eth = EMFILE
0 hangup eth 0 = EMFILE
1 read 0 = eof
0 read 0 = EAGAIN empty
config
next 1 1
end
""",
     """\
transcript 2
driver eth leaf 2 8 3 16
0 clone eth = fd 0 0
0 hangup eth 0 = done
1 read 0 = EBADF fd
0 read 0 = eof
config
next 1 1
fd 0 0 eth 0
hung eth 0
end
"""),
    ("""\
transcript 1
config
next 0 0
end
""",
     """\
transcript 1
config
next 1 1
end
"""),
]

# Transcripts, and what a check that explains itself writes of them.
EXPLAINED = [
    (TWO_PROCESSES, "legal 2\n"),
    (WRONG_REPLY,
     """\
illegal 2
line 4: 1 clone ip = fd 0 2
replay: 1 clone ip = fd 0 1
"""),
    (OTHER_CONFIGURATION,
     """\
config differs
line 8: fd 1 0 ip 2
replay: fd 1 0 ip 1
"""),
]

# Texts that are not programs, and the line that says so.
NO_PROGRAMS = [
    ("", "line 1: cut"),
    ("programs 3\n", "line 1: header"),
    ("programs 2\n", "line 2: cut"),
    ("""\
programs 1
driver ip mux 4 8 3 16
process 0
clone ip
""",
     "line 5: cut"),
    ("""\
programs 1
end
 """,
     "line 3: trailing"),
    ("""\
programs 1
clone ip
end
""",
     "line 2: form"),
    ("""\
programs 1
process 0
driver ip mux 4 8 3 16
end
""",
     "line 3: form"),
    # A fault of the text comes before that of its drivers.
    ("programs 1\ndriver ip mux 2 8 3 16\ndriver ip leaf 1 1 0 1\nprocess 0\nexit\nexit 0\nend\n", "line 6: form"),
]

# Lines that are not commands of version 1.
NO_COMMANDS = [
    "hangup ip 0",
    "dup 00",
    "close  0",
    "close 0 ",
    " close 0",
    "open ip 4294967296",
    "process 2",
    "dup +1",
    "dup",
    "exit 0",
    "clone 9a",
    "clone ninelette",
    "clone IP",
    "close 0\r",
    "link 0",
    "write 0 5 AA",
    "write 0 5 aab",
    "write 0 5",
    "unlink 0 each",
    "flush 0 x",
    "inject eth 0 9 -1",
    "route 0 5 01",
    "driver eth leaf 1 1 0 1",
    "",
    "closed 0",
]

# Live sessions that end otherwise, and what they write.
ANSWERED = [
    # The end of the input ends the transcript too, after a table and after a line that is cut.
    ("programs 1\n",
     """\
transcript 1
config
next 1 1
end
"""),
    ("""\
programs 1
driver ip mux 4 8 3 16
3 clone ip
""",
     """\
transcript 1
driver ip mux 4 8 3 16
3 clone ip = fd 0 0
config
next 1 1
fd 3 0 ip 0
end
"""),
    ("""\
programs 1
driver ip mux 4 8 3 16
3 clone ip""",
     """\
transcript 1
driver ip mux 4 8 3 16
? cut
config
next 1 1
end
"""),
    ("programs 1\ndriv",
     """\
transcript 1
? cut
config
next 1 1
end
"""),
    # A line with only a carriage return is not an empty line.
    ("programs 1\n\r\nend\n",
     """\
transcript 1
? no command
config
next 1 1
end
"""),
    ("""\
programs 2
driver eth leaf 2 8 3 16
0 clone eth
0 hangup eth 0
0 read 0
end
""",
     """\
transcript 2
driver eth leaf 2 8 3 16
0 clone eth = fd 0 0
0 hangup eth 0 = done
0 read 0 = eof
config
next 1 1
fd 0 0 eth 0
hung eth 0
end
"""),
]

# Lines of a live session of version 1 that are not a process and a command. (An empty line asks for the configuration.)
NO_LINES = ["0", "64 exit", "00 exit", "0 exit ", "0 exit = done", "0 hangup eth 0", "clone ip", "0 write 0 5 C0"]

# Texts that are not tables, the line that says so, and the status.
NO_TABLES = [
    ("", "line 1: cut", 3),
    ("programs 1", "line 1: cut", 3),
    ("programs 1\ndriver", "line 2: cut", 3),
    ("programs 1\ndriver ip mux 4 8 3 16", "line 2: cut", 3),
    ("programs 1\ndriver ip mux 4 8 8 16\ndriver eth leaf 1 8 3", "line 3: cut", 3),
    ("""\
transcript 1
end
""",
     "line 1: header",
     3),
    ("programs 1\r\nend\n", "line 1: header", 3),
    ("""\
programs 1
driver ip mux 4 8 3
end
""",
     "line 2: form",
     3),
    ("""\
programs 1
driver
end
""",
     "line 2: form",
     3),
    ("""\
programs 1
driver ip mux 4 8 8 16
end
""",
     "refused: driver 0 marks",
     1),
    ("""\
programs 1
driver ip mux 4 8 3 16
driver ip mux 4 8 3 16
""",
     "refused: driver 1 same name",
     1),
]

# A job, a text that it refuses, the invalid line with its cause, and the lines that explain it.
SHOWN = [
    ("run",
     """\
transcript 2
end
""",
     1,
     "header",
     """\
line 1: transcript 2
this is a transcript, for 'muxsim check', 'muxsim replay' or 'muxsim draw'
"""),
    ("check",
     """\
programs 1
end
""",
     1,
     "header",
     """\
line 1: programs 1
these are programs, for 'muxsim run'
"""),
    ("run",
     """\
programs 3
end
""",
     1,
     "header",
     """\
line 1: programs 3
the first line has to be 'programs 1' or 'programs 2'
"""),
    ("check",
     "\xef\xbb\xbftranscript 1\r\n",
     1,
     "header",
     "line 1: \\xef\\xbb\\xbftranscript 1\\x0d\nthe first line has to be 'transcript 1' or 'transcript 2'\n"),
    ("run",
     "programs 1\nprocess 0\ndup \\\nend\n",
     3,
     "form",
     "line 3: dup \\x5c\ncolumn 5: a number from 0 to 4294967295 is wanted\n"),
    # A space at the end of a line is shown by its digits, and no other.
    ("run",
     "programs 1\nprocess 0\nclose 0 \nend\n",
     3,
     "form",
     "line 3: close 0\\x20\ncolumn 9: the end of the line is wanted, with no space before it\n"),
    ("run",
     "programs 1\nprocess 0\nclose 0  \nend\n",
     3,
     "form",
     "line 3: close 0 \\x20\ncolumn 9: the end of the line is wanted\n"),
    ("run",
     "programs 1\nprocess 0\nclose \nend\n",
     3,
     "form",
     "line 3: close\\x20\ncolumn 7: a number from 0 to 4294967295 is wanted\n"),
    ("check",
     "transcript 1\n0 exit = done \nconfig\nnext 1 1\nend\n",
     2,
     "form",
     "line 2: 0 exit = done\\x20\ncolumn 15: a number from 0 to 4294967295, or the end of the line is wanted\n"),
    ("run",
     "programs 1 \nend\n",
     1,
     "header",
     "line 1: programs 1\\x20\nthe first line has to be 'programs 1' or 'programs 2'\n"),
    ("run",
     "programs 1\nend\n ",
     3,
     "trailing",
     "line 3: \\x20\nnothing may follow the line 'end'\n"),
    ("run",
     "programs 1\n0123456789012345678901234567890123456789012345678901234567890123456789012345678\x09\nend\n",
     2,
     "form",
     """\
line 2: 0123456789012345678901234567890123456789012345678901234567890123456789012345678..
column 1: 'driver', 'process', 'end', a command, or in version 2 'hangup' is wanted
"""),
    ("run",
     """\
programs 1
process 0
process 2
end
""",
     3,
     "form",
     """\
line 3: process 2
the processes are numbered 0, 1, 2 and so on
"""),
    ("run",
     """\
programs 2
exit
process 0
end
""",
     2,
     "form",
     """\
line 2: exit
a command follows the line of its process
"""),
    ("run",
     "programs 1\n" + "".join(f"driver d{number} leaf 1 8 3 16\n" for number in range(65)) + "end\n",
     66,
     "many",
     """\
line 66: driver d64 leaf 1 8 3 16
at most 64 drivers are allowed in version 1
"""),
    ("run",
     "programs 2\n" + "".join(f"driver d{number} leaf 1 8 3 16\n" for number in range(129)) + "end\n",
     130,
     "many",
     """\
line 130: driver d128 leaf 1 8 3 16
at most 128 drivers are allowed in version 2
"""),
    ("run",
     "programs 1\n" + "".join(f"process {number}\n" for number in range(65)) + "end\n",
     66,
     "many",
     """\
line 66: process 64
at most 64 processes are allowed
"""),
    ("run",
     "programs 2\nprocess 0\n" + "exit\n" * 100_001 + "end\n",
     100_003,
     "many",
     """\
line 100003: exit
at most 100,000 commands are allowed
"""),
    ("check",
     "transcript 1\n" + "".join(f"driver d{number} leaf 1 8 3 16\n" for number in range(65)) + "config\nnext 1 1\nend\n",
     66,
     "many",
     """\
line 66: driver d64 leaf 1 8 3 16
at most 64 drivers are allowed in version 1
"""),
    ("check",
     "transcript 2\n" + "".join(f"driver d{number} leaf 1 8 3 16\n" for number in range(129))
     + "config\nnext 1 1\nend\n",
     130,
     "many",
     """\
line 130: driver d128 leaf 1 8 3 16
at most 128 drivers are allowed in version 2
"""),
    ("check",
     "transcript 1\n" + "0 exit = done\n" * 100_001 + "config\nnext 1 1\nend\n",
     100_002,
     "many",
     """\
line 100002: 0 exit = done
at most 100,000 entries are allowed
"""),
    ("run",
     """\
programs 1
process 0
clone i""",
     3,
     "cut",
     """\
line 3: clone i
the text ends before a line 'end' that is whole
"""),
    ("run",
     """\
programs 1
end

""",
     3,
     "trailing",
     """\
line 3: 
nothing may follow the line 'end'
"""),
    ("run",
     """\
transcript 1
end
""",
     1,
     "header",
     """\
line 1: transcript 1
this is a transcript, for 'muxsim check', 'muxsim replay' or 'muxsim draw'
"""),
    ("check",
     """\
programs 2
end
""",
     1,
     "header",
     """\
line 1: programs 2
these are programs, for 'muxsim run'
"""),
]

# The lines of a transcript below its header, up to one that is well-formed but not allowed at its place, and the reason
# that is shown.
MISPLACED = [
    (["0 exit = done", "driver ip mux 4 8 3 16"], "the drivers come before the entries and before 'config'"),
    (["config", "driver ip mux 4 8 3 16"], "the drivers come before the entries and before 'config'"),
    (["config", "next 1 1", "driver ip mux 4 8 3 16"], "the drivers come before the entries and before 'config'"),
    (["config", "0 exit = done"], "the entries come before 'config'"),
    (["config", "next 1 1", "fd 0 0 ip 0", "63 exit = done"], "the entries come before 'config'"),
    (["config", "config"], "'config' comes once, after the entries"),
    (["config", "next 1 1", "config"], "'config' comes once, after the entries"),
    (["next 1 1"], "'next' comes once, right after 'config'"),
    (["0 exit = done", "next 1 1"], "'next' comes once, right after 'config'"),
    (["config", "next 1 1", "next 1 1"], "'next' comes once, right after 'config'"),
    (["config", "next 1 1", "fd 0 0 ip 0", "next 1 1"], "'next' comes once, right after 'config'"),
    (["end"], "'config' and 'next' come before 'end'"),
    (["driver ip mux 4 8 3 16", "0 exit = done", "end"], "'config' and 'next' come before 'end'"),
    (["config", "end"], "'config' and 'next' come before 'end'"),
]

# The lines below `next`, in their order; the last of them only in version 2.
GROUPS = [
    "fd 0 0 ip 0",
    "link 1 ip 0 eth 0 plink",
    "bind ip 9 0",
    "route ip 5 1",
    "msg eth 0 w 3 5 0303",
    "full eth 0 w",
    "hung eth 0",
]

# The reason that is shown if one of them is not allowed at its place, in both versions.
OTHER_GROUPS = [
    "after 'next' come 'fd', 'link', 'bind', 'route', 'msg' and 'full' lines, in this order",
    "after 'next' come 'fd', 'link', 'bind', 'route', 'msg', 'full' and 'hung' lines, in this order",
]

# A job, a header and a malformed line after it, and the column with the words that may be there.
WANTED = [
    ("run", "programs 1", "clone 9a", "column 7: a name of 1 to 8 small letters and digits, a letter first, is wanted"),
    ("run", "programs 1", "driver ip tree 4 8 3 16", "column 11: 'leaf' or 'mux' is wanted"),
    ("run", "programs 1", "close 4294967296", "column 7: a number from 0 to 4294967295 is wanted"),
    ("run", "programs 1", "unlink 0 ALL", "column 10: an id or 'all' is wanted"),
    ("run", "programs 1", "flush 0 wr", "column 9: 'r', 'w' or 'rw' is wanted"),
    ("run", "programs 1", "write 0 5 aG", "column 11: hex digits in pairs, or '-', is wanted"),
    ("run", "programs 1", "", "column 1: 'driver', 'process', 'end', a command, or in version 2 'hangup' is wanted"),
    ("run", "programs 1", "0 exit = done", "column 1: 'driver', 'process', 'end', a command, or in version 2 'hangup' is wanted"),
    ("run", "programs 1", "exit = done", "column 6: the end of the line is wanted"),
    ("run", "programs 2", "hangup eth", "column 12: a number from 0 to 4294967295 is wanted"),
    ("check",
     "transcript 1",
     "process 0",
     "column 1: 'driver', a process from 0 to 63, 'config', 'next', 'fd', 'link', 'bind', 'route', 'msg', 'full', 'end', or in version 2 'hung' is wanted"),
    ("check", "transcript 2", "hung eth", "column 10: a number from 0 to 4294967295 is wanted"),
    ("check", "transcript 1", "fd 64 0 ip 0", "column 4: a process from 0 to 63 is wanted"),
    ("check", "transcript 1", "full ip 0 rw", "column 11: 'w' or 'r' is wanted"),
    ("check", "transcript 1", "link 1 ip 0 eth 0 both", "column 19: 'link' or 'plink' is wanted"),
    ("check", "transcript 1", "0 dance = done", "column 3: a command, or in version 2 'hangup' is wanted"),
    ("check", "transcript 1", "63 exit", "column 9: '=' is wanted"),
    ("check", "transcript 2", "0 exit = eof 1", "column 14: the end of the line is wanted"),
    ("check", "transcript 1", "0 exit = EBADF", "column 16: 'fd' is wanted"),
    ("check",
     "transcript 1",
     "0 exit = EINVAL full",
     "column 17: 'below', 'notmux', 'already', 'cycle', 'id', 'unbound' or 'unrouted' is wanted"),
    ("check", "transcript 1", "0 exit = EAGAIN fd", "column 17: 'links', 'full' or 'empty' is wanted"),
    ("check",
     "transcript 2",
     "0 exit = ENXIO eof",
     "column 16: 'driver', 'minor', or in version 2 'hangup' is wanted"),
    ("check",
     "transcript 1",
     "0 exit = done 1 x",
     "column 17: a number from 0 to 4294967295, or the end of the line is wanted"),
]

# A job, a header and a malformed line after it, the column with the words that may be there, and a line of help.
HINTED = [
    ("run",
     "programs 1",
     "wirte 0 5 ab",
     "column 1: 'driver', 'process', 'end', a command, or in version 2 'hangup' is wanted",
     "did you mean 'write'?"),
    ("run",
     "programs 1",
     "wriet 0 5 ab",
     "column 1: 'driver', 'process', 'end', a command, or in version 2 'hangup' is wanted",
     "did you mean 'write'?"),
    ("run",
     "programs 1",
     "wride 0 5 ab",
     "column 1: 'driver', 'process', 'end', a command, or in version 2 'hangup' is wanted",
     "did you mean 'write'?"),
    ("run",
     "programs 1",
     "writte 0 5 ab",
     "column 1: 'driver', 'process', 'end', a command, or in version 2 'hangup' is wanted",
     "did you mean 'write'?"),
    ("run",
     "programs 1",
     "rite 0 5 ab",
     "column 1: 'driver', 'process', 'end', a command, or in version 2 'hangup' is wanted",
     "did you mean 'write'?"),
    ("run",
     "programs 1",
     "writ",
     "column 1: 'driver', 'process', 'end', a command, or in version 2 'hangup' is wanted",
     "did you mean 'write'?"),
    ("run",
     "programs 1",
     "drivr eth",
     "column 1: 'driver', 'process', 'end', a command, or in version 2 'hangup' is wanted",
     "did you mean 'driver'?"),
    ("run",
     "programs 1",
     "proces 0",
     "column 1: 'driver', 'process', 'end', a command, or in version 2 'hangup' is wanted",
     "did you mean 'process'?"),
    ("run",
     "programs 1",
     "ned",
     "column 1: 'driver', 'process', 'end', a command, or in version 2 'hangup' is wanted",
     "did you mean 'end'?"),
    ("run",
     "programs 2",
     "hangpu eth 0",
     "column 1: 'driver', 'process', 'end', a command, or in version 2 'hangup' is wanted",
     "did you mean 'hangup'?"),
    ("run",
     "programs 1",
     "hangup eth 0",
     "column 1: 'driver', 'process', 'end', a command, or in version 2 'hangup' is wanted",
     "version 2 has this word, and version 1 has not"),
    ("run",
     "programs 1",
     "write 0 5 C0FFEE",
     "column 11: hex digits in pairs, or '-', is wanted",
     "the letters of hex digits are small, 'a' to 'f'"),
    ("run",
     "programs 1",
     "inject eth 0 5 aB",
     "column 16: hex digits in pairs, or '-', is wanted",
     "the letters of hex digits are small, 'a' to 'f'"),
    ("run",
     "programs 1",
     "write 0 5 F",
     "column 11: hex digits in pairs, or '-', is wanted",
     "the letters of hex digits are small, 'a' to 'f'"),
    ("check",
     "transcript 1",
     "confg",
     "column 1: 'driver', a process from 0 to 63, 'config', 'next', 'fd', 'link', 'bind', 'route', 'msg', 'full', 'end', or in version 2 'hung' is wanted",
     "did you mean 'config'?"),
    ("check",
     "transcript 1",
     "hung eth 0",
     "column 1: 'driver', a process from 0 to 63, 'config', 'next', 'fd', 'link', 'bind', 'route', 'msg', 'full', 'end', or in version 2 'hung' is wanted",
     "version 2 has this word, and version 1 has not"),
    ("check",
     "transcript 2",
     "hug eth 0",
     "column 1: 'driver', a process from 0 to 63, 'config', 'next', 'fd', 'link', 'bind', 'route', 'msg', 'full', 'end', or in version 2 'hung' is wanted",
     "did you mean 'hung'?"),
    ("check",
     "transcript 1",
     "0 colne ip = fd 0 0",
     "column 3: a command, or in version 2 'hangup' is wanted",
     "did you mean 'clone'?"),
    ("check",
     "transcript 1",
     "0 hangup eth 0 = done",
     "column 3: a command, or in version 2 'hangup' is wanted",
     "version 2 has this word, and version 1 has not"),
    ("check", "transcript 1", "0 exit : done", "column 8: '=' is wanted", "did you mean '='?"),
    ("check",
     "transcript 1",
     "0 exit = eof",
     "column 10: 'fd', 'id', 'took', 'got', 'done', an error, or in version 2 'eof' is wanted",
     "version 2 has this word, and version 1 has not"),
    ("check",
     "transcript 1",
     "0 exit = don",
     "column 10: 'fd', 'id', 'took', 'got', 'done', an error, or in version 2 'eof' is wanted",
     "did you mean 'done'?"),
    ("check",
     "transcript 1",
     "0 exit = EINVL id",
     "column 10: 'fd', 'id', 'took', 'got', 'done', an error, or in version 2 'eof' is wanted",
     "did you mean 'EINVAL'?"),
    ("check",
     "transcript 1",
     "0 exit = ENXIO hangup",
     "column 16: 'driver', 'minor', or in version 2 'hangup' is wanted",
     "version 2 has this word, and version 1 has not"),
    ("check",
     "transcript 1",
     "0 exit = EINVAL cylce",
     "column 17: 'below', 'notmux', 'already', 'cycle', 'id', 'unbound' or 'unrouted' is wanted",
     "did you mean 'cycle'?"),
    ("check",
     "transcript 1",
     "shown",
     "column 1: 'driver', a process from 0 to 63, 'config', 'next', 'fd', 'link', 'bind', 'route', 'msg', 'full', 'end', or in version 2 'hung' is wanted",
     "this is the output of a session: leave out the lines with '?', and from 'config' to 'shown'"),
    ("check",
     "transcript 2",
     "? no command",
     "column 1: 'driver', a process from 0 to 63, 'config', 'next', 'fd', 'link', 'bind', 'route', 'msg', 'full', 'end', or in version 2 'hung' is wanted",
     "this is the output of a session: leave out the lines with '?', and from 'config' to 'shown'"),
    ("replay",
     "transcript 1",
     "  + fd 0 0 ip 0",
     "column 1: 'driver', a process from 0 to 63, 'config', 'next', 'fd', 'link', 'bind', 'route', 'msg', 'full', 'end', or in version 2 'hung' is wanted",
     "this is a trace: leave out the lines that begin with two spaces"),
    ("trace",
     "transcript 1",
     "  waits ip 0 w 6: eth 0 w is full",
     "column 1: 'driver', a process from 0 to 63, 'config', 'next', 'fd', 'link', 'bind', 'route', 'msg', 'full', 'end', or in version 2 'hung' is wanted",
     "this is a trace: leave out the lines that begin with two spaces"),
    ("draw",
     "transcript 1",
     "0 exti = done",
     "column 3: a command, or in version 2 'hangup' is wanted",
     "did you mean 'exit'?"),
]

# Drivers, their fault, and the lines that explain it.
REFUSED_DRIVERS = [
    ("""\
driver ip mux 0 8 3 16
""",
     "driver 0 minors",
     """\
line 2: driver ip mux 0 8 3 16
a driver has 1 to 64 minors
"""),
    ("""\
driver ip mux 4 8 8 16
""",
     "driver 0 marks",
     """\
line 2: driver ip mux 4 8 8 16
the high water mark is at most 4096, and the low one is below it
"""),
    ("""\
driver ip mux 4 8 3 16
driver eth leaf 1 8 3 0
""",
     "driver 1 max",
     """\
line 3: driver eth leaf 1 8 3 0
the longest message of a driver has 1 to 1024 bytes
"""),
    ("""\
driver ip mux 4 8 3 16
driver ip leaf 1 8 3 16
""",
     "driver 1 same name",
     """\
line 3: driver ip leaf 1 8 3 16
line 2 has the name 'ip' too
"""),
    ("""\
driver ip mux 4 8 3 16
driver eth leaf 1 8 3 16
driver eth9 leaf 1 8 3 16
driver eth mux 1 8 3 16
""",
     "driver 3 same name",
     """\
line 5: driver eth mux 1 8 3 16
line 3 has the name 'eth' too
"""),
]

# Lines of programs, and the text that is shown of each: at most 80 columns, with the digits of each invisible byte.
CUT = [
    ("12345678901234567890123456789012345678901234567890123456789012345678901234567890",
     "12345678901234567890123456789012345678901234567890123456789012345678901234567890"),
    ("123456789012345678901234567890123456789012345678901234567890123456789012345678901",
     "12345678901234567890123456789012345678901234567890123456789012345678901234567890.."),
    ("1234567890123456789012345678901234567890123456789012345678901234567890123456\x00",
     "1234567890123456789012345678901234567890123456789012345678901234567890123456\\x00"),
    ("12345678901234567890123456789012345678901234567890123456789012345678901234567\x00",
     "12345678901234567890123456789012345678901234567890123456789012345678901234567.."),
    ("1234567890123456789012345678901234567890123456789012345678901234567890123456\x00 ",
     "1234567890123456789012345678901234567890123456789012345678901234567890123456\\x00.."),
    (" !~}\\[]", " !~}\\x5c[]"),
    ("\x00\x09\x1f\x7f\x80\xff", "\\x00\\x09\\x1f\\x7f\\x80\\xff"),
    ("\r", "\\x0d"),
]

# Lines of a transcript that lack '=', the column at which it should be, and the text that is shown of each: if that
# column is not in the first 80, the text begins 60 bytes before it.
FAR = [
    ("0 write 0 5 " + "ab" * 33 + " is took 1", 80, "0 write 0 5 " + "ab" * 33 + " i.."),
    ("0 write 0 5 " + "ab" * 34 + " is took 1", 82, "..b" + "ab" * 29 + " is took 1"),
    ("0 write 0 5 " + "ab" * 34 + " is took 1 and more t", 82, "..b" + "ab" * 29 + " is took 1 and more t"),
    ("0 write 0 5 " + "ab" * 34 + " is took 1 and more th", 82, "..b" + "ab" * 29 + " is took 1 and more t.."),
    # A byte that takes four columns fits, or doesn't.
    ("0 write 0 5 " + "ab" * 31 + " \x09took 1", 76, "0 write 0 5 " + "ab" * 31 + " \\x09t.."),
    ("0 write 0 5 " + "ab" * 32 + " \x09took 1", 78, "..b" + "ab" * 29 + " \\x09took 1"),
    # The word is missing at the end of the line.
    ("0 write 0 5 " + "ab" * 34, 82, "0 write 0 5 " + "ab" * 34),
    ("0 write 0 5 " + "ab" * 35, 84, "..b" + "ab" * 29),
    ("0 write 0 5 " + "ab" * 33 + " ", 80, "..b" + "ab" * 29 + "\\x20"),
    ("0 write 0 5 " + "ab" * 35 + " ", 84, "..b" + "ab" * 29 + "\\x20"),
]
