"""Worked histories, typed in from the rules, and verdicts on them

A text is a string. Histories are of version 2 and over the drivers `ip` and `eth`, where nothing else is said."""

IP_AND_ETH = "driver ip mux 4 8 3 16\ndriver eth leaf 2 8 3 16\n"

# A stream hangs up in each of its positions: the entries, and the configuration at the end.
HANGUPS = [
    # Commands that are refused because of a hangup, and commands that are not. A message waits: it was routed to the
    # stream that hung up, which has ended since. Then a stream is read to its end, and stays hung up below a link.
    ("""\
0 clone ip = fd 0 0
0 clone eth = fd 1 0
0 link 0 1 = id 1
0 route 0 5 1 = done
0 write 0 5 aa = took 1
0 hangup eth 0 = done
0 write 0 5 bb = took 2
0 inject eth 0 9 cc = ENXIO hangup
0 transmit eth 0 = ENXIO hangup
0 unlink 0 1 = done
0 write 1 5 dd = ENXIO hangup
0 write 1 5 - = ENXIO hangup
0 read 1 = eof
0 link 1 0 = ENXIO hangup
0 link 1 9 = EBADF fd
0 flush 1 w = ENXIO hangup
0 hangup ip 0 = ENXIO driver
0 hangup eth 1 = ENXIO minor
0 close 1 = done 1
0 clone eth = fd 1 0
0 read 1 = EAGAIN empty
""",
     "next 2 3\nfd 0 0 ip 0\nfd 0 1 eth 0\nmsg ip 0 w 2 5 bb\n"),
    ("""\
0 clone eth = fd 0 0
0 inject eth 0 9 aa = took 1
0 hangup eth 0 = done
0 hangup eth 0 = done
0 read 0 = got 1 9 aa
0 read 0 = eof
0 clone ip = fd 1 0
0 plink 1 0 = id 1
0 read 0 = EINVAL below
""",
     "next 2 2\nfd 0 0 eth 0\nfd 0 1 ip 0\nlink 1 ip 0 eth 0 plink\nhung eth 0\n"),
    # It is open: it can be shared, doubled and closed, and hung up a second time; its end forgets the hangup.
    ("""\
0 clone eth = fd 0 0
0 hangup eth 0 = done
0 dup 0 = fd 1 0
1 open eth 0 = fd 0 0
1 hangup eth 0 = done
0 read 1 = eof
1 read 0 = eof
1 write 0 5 aa = ENXIO hangup
0 flush 0 rw = ENXIO hangup
0 inject eth 0 5 aa = ENXIO hangup
0 transmit eth 0 = ENXIO hangup
0 bind 0 5 = EINVAL notmux
0 unlink 0 all = EINVAL notmux
0 close 0 = done
0 close 1 = done
0 clone eth = fd 0 1
""",
     "next 1 1\nfd 0 0 eth 1\nfd 1 0 eth 0\nhung eth 0\n"),
    ("""\
0 clone eth = fd 0 0
0 hangup eth 0 = done
0 close 0 = done
0 hangup eth 0 = ENXIO minor
0 clone eth = fd 0 0
0 read 0 = EAGAIN empty
0 write 0 5 aa = took 1
0 transmit eth 0 = got 1 5 aa
""",
     "next 1 2\nfd 0 0 eth 0\n"),
    # It is below a link of either kind, or is linked below once it has hung up; it may not be above one.
    ("""\
0 clone ip = fd 0 0
0 clone eth = fd 1 0
0 link 0 1 = id 1
0 hangup eth 0 = done
0 read 1 = EINVAL below
0 write 1 5 aa = EINVAL below
0 flush 1 r = EINVAL below
0 link 1 0 = EINVAL below
0 open eth 0 = EINVAL below
0 inject eth 0 5 aa = ENXIO hangup
0 unlink 0 1 = done
0 read 1 = eof
0 link 1 0 = ENXIO hangup
0 plink 1 1 = ENXIO hangup
0 link 1 9 = EBADF fd
""",
     "next 2 1\nfd 0 0 ip 0\nfd 0 1 eth 0\nhung eth 0\n"),
    ("""\
0 clone ip = fd 0 0
0 clone eth = fd 1 0
0 plink 0 1 = id 1
0 close 1 = done
0 hangup eth 0 = done
0 exit = done
0 hangup eth 0 = done
""",
     "next 2 1\nlink 1 ip 0 eth 0 plink\nhung eth 0\n"),
    ("""\
0 clone ip = fd 0 0
0 clone eth = fd 1 0
0 hangup eth 0 = done
0 link 0 1 = id 1
0 close 1 = done
0 close 0 = done
0 clone eth = fd 0 0
0 read 0 = EAGAIN empty
""",
     "next 2 1\nfd 0 0 eth 0\n"),
    ("""\
0 clone ip = fd 0 0
0 clone eth = fd 1 0
0 hangup eth 0 = done
0 plink 0 1 = id 1
0 close 1 = done
0 punlink 0 1 = done
0 open eth 0 = fd 1 0
0 read 1 = EAGAIN empty
""",
     "next 2 1\nfd 0 0 ip 0\nfd 0 1 eth 0\n"),
    # It has messages on both sides, or both are full: what came in is read, and what was to go out stays until its
    # end.
    ("""\
0 clone eth = fd 0 0
0 inject eth 0 9 aa = took 1
0 inject eth 0 9 bb = took 2
0 write 0 5 cc = took 3
0 hangup eth 0 = done
0 transmit eth 0 = ENXIO hangup
0 read 0 = got 1 9 aa
""",
     "next 1 4\nfd 0 0 eth 0\nmsg eth 0 w 3 5 cc\nmsg eth 0 r 2 9 bb\nhung eth 0\n"),
    ("""\
0 clone eth = fd 0 0
0 inject eth 0 9 0102030405060708 = took 1
0 write 0 5 0102030405060708 = took 2
0 write 0 5 aa = EAGAIN full
0 hangup eth 0 = done
0 write 0 5 aa = ENXIO hangup
0 write 0 5 - = ENXIO hangup
0 inject eth 0 9 aa = ENXIO hangup
0 inject eth 0 9 - = ENXIO hangup
0 flush 0 w = ENXIO hangup
""",
     """\
next 1 3
fd 0 0 eth 0
msg eth 0 w 2 5 0102030405060708
msg eth 0 r 1 9 0102030405060708
full eth 0 w
full eth 0 r
hung eth 0
"""),
    ("""\
0 clone eth = fd 0 0
0 inject eth 0 9 0102030405060708 = took 1
0 write 0 5 0102030405060708 = took 2
0 hangup eth 0 = done
0 read 0 = got 1 9 0102030405060708
0 read 0 = eof
0 close 0 = done 2
""",
     "next 1 3\n"),
    # A route leads to it: a message for it waits, holds up the messages after it, and goes on by another route.
    ("""\
0 clone ip = fd 0 0
0 clone eth = fd 1 0
0 clone eth = fd 2 1
0 link 0 1 = id 1
0 link 0 2 = id 2
0 route 0 5 1 = done
0 route 0 6 2 = done
0 hangup eth 0 = done
0 write 0 5 aa = took 1
0 write 0 6 bb = took 2
0 transmit eth 1 = EAGAIN empty
""",
     """\
next 3 3
fd 0 0 ip 0
fd 0 1 eth 0
fd 0 2 eth 1
link 1 ip 0 eth 0 link
link 2 ip 0 eth 1 link
route ip 5 1
route ip 6 2
msg ip 0 w 1 5 aa
msg ip 0 w 2 6 bb
hung eth 0
"""),
    ("""\
0 clone ip = fd 0 0
0 clone eth = fd 1 0
0 clone eth = fd 2 1
0 link 0 1 = id 1
0 link 0 2 = id 2
0 route 0 5 1 = done
0 write 0 5 0102030405060708 = took 1
0 write 0 5 aa = took 2
0 hangup eth 0 = done
0 route 0 5 2 = done
0 transmit eth 1 = got 2 5 aa
""",
     """\
next 3 3
fd 0 0 ip 0
fd 0 1 eth 0
fd 0 2 eth 1
link 1 ip 0 eth 0 link
link 2 ip 0 eth 1 link
route ip 5 2
msg eth 0 w 1 5 0102030405060708
full eth 0 w
hung eth 0
"""),
    # Settling reaches it after the first of three messages.
    ("""\
0 clone ip = fd 0 0
0 clone eth = fd 1 0
0 clone eth = fd 2 1
0 link 0 1 = id 1
0 link 0 2 = id 2
0 write 0 5 aa = took 1
0 write 0 6 bb = took 2
0 write 0 5 cc = took 3
0 hangup eth 1 = done
0 hangup ip 0 = ENXIO driver
0 route 0 6 2 = done
0 route 0 5 1 = done
0 transmit eth 0 = got 1 5 aa
0 transmit eth 0 = EAGAIN empty
0 route 0 6 1 = done
0 transmit eth 0 = got 2 6 bb
""",
     """\
next 3 4
fd 0 0 ip 0
fd 0 1 eth 0
fd 0 2 eth 1
link 1 ip 0 eth 0 link
link 2 ip 0 eth 1 link
route ip 5 1
route ip 6 1
msg eth 0 w 3 5 cc
hung eth 1
"""),
    # The messages that came in from it still move up.
    ("""\
0 clone ip = fd 0 0
0 clone eth = fd 1 0
0 link 0 1 = id 1
0 inject eth 0 9 aa = took 1
0 hangup eth 0 = done
0 bind 0 9 = done
0 read 0 = got 1 9 aa
0 read 0 = EAGAIN empty
""",
     "next 2 2\nfd 0 0 ip 0\nfd 0 1 eth 0\nlink 1 ip 0 eth 0 link\nbind ip 9 0\nhung eth 0\n"),
    # Two streams wait for a full one. It hangs up, and its end drops what it holds; by another route both go on.
    ("""\
0 clone ip = fd 0 0
0 clone ip = fd 1 1
0 clone eth = fd 2 0
0 link 0 2 = id 1
0 route 0 5 1 = done
0 write 1 5 0102030405060708 = took 1
0 write 1 5 0a = took 2
0 write 0 5 0b = took 3
0 hangup eth 0 = done
0 transmit eth 0 = ENXIO hangup
0 close 2 = done
0 unlink 0 1 = done 1
0 clone eth = fd 2 0
0 link 0 2 = id 2
0 route 0 5 2 = done
0 transmit eth 0 = got 3 5 0b
0 transmit eth 0 = got 2 5 0a
""",
     "next 3 4\nfd 0 0 ip 0\nfd 0 1 ip 1\nfd 0 2 eth 0\nlink 2 ip 0 eth 0 link\nroute ip 5 2\n"),
    ("""\
0 clone ip = fd 0 0
0 clone eth = fd 1 0
0 link 0 1 = id 1
0 route 0 5 1 = done
0 write 0 5 0102030405060708 = took 1
0 write 0 5 0102030405060708 = took 2
0 write 0 5 0a = EAGAIN full
0 hangup eth 0 = done
0 write 0 5 0a = EAGAIN full
0 flush 0 w = done 2
0 write 0 5 0a = took 3
""",
     """\
next 2 4
fd 0 0 ip 0
fd 0 1 eth 0
link 1 ip 0 eth 0 link
route ip 5 1
msg ip 0 w 3 5 0a
msg eth 0 w 1 5 0102030405060708
full eth 0 w
hung eth 0
"""),
]

# Messages go the same way again, until they go another.
WAYS = [
    # Down by a route, by another one for the same address, and by none.
    ("""\
0 clone ip = fd 0 0
0 clone eth = fd 1 0
0 clone eth = fd 2 1
0 link 0 1 = id 1
0 link 0 2 = id 2
0 route 0 5 1 = done
0 write 0 5 aa = took 1
0 write 0 5 bb = took 2
0 route 0 5 2 = done
0 write 0 5 cc = took 3
0 write 0 5 dd = took 4
0 unroute 0 5 = done
0 write 0 5 ee = took 5
0 transmit eth 0 = got 1 5 aa
0 transmit eth 0 = got 2 5 bb
0 transmit eth 0 = EAGAIN empty
0 transmit eth 1 = got 3 5 cc
0 transmit eth 1 = got 4 5 dd
0 transmit eth 1 = EAGAIN empty
""",
     """\
next 3 6
fd 0 0 ip 0
fd 0 1 eth 0
fd 0 2 eth 1
link 1 ip 0 eth 0 link
link 2 ip 0 eth 1 link
msg ip 0 w 5 5 ee
"""),
    # Up by a binding, by one of the same address to another stream, and by none.
    ("""\
0 clone ip = fd 0 0
0 clone ip = fd 1 1
0 clone eth = fd 2 0
0 link 0 2 = id 1
0 bind 0 9 = done
0 inject eth 0 9 aa = took 1
0 inject eth 0 9 bb = took 2
0 unbind 0 = done
0 bind 1 9 = done
0 inject eth 0 9 cc = took 3
0 unbind 1 = done
0 inject eth 0 9 dd = took 4
0 read 0 = got 1 9 aa
0 read 0 = got 2 9 bb
0 read 0 = EAGAIN empty
0 read 1 = got 3 9 cc
0 read 1 = EAGAIN empty
""",
     "next 2 5\nfd 0 0 ip 0\nfd 0 1 ip 1\nfd 0 2 eth 0\nlink 1 ip 0 eth 0 link\nmsg eth 0 r 4 9 dd\n"),
    # To a stream that hangs up; then to another one.
    ("""\
0 clone ip = fd 0 0
0 clone eth = fd 1 0
0 clone eth = fd 2 1
0 link 0 1 = id 1
0 route 0 5 1 = done
0 write 0 5 aa = took 1
0 hangup eth 0 = done
0 write 0 5 bb = took 2
0 unlink 0 1 = done
0 link 0 2 = id 2
0 route 0 5 2 = done
0 write 0 5 cc = took 3
0 transmit eth 1 = got 2 5 bb
0 transmit eth 1 = got 3 5 cc
""",
     """\
next 3 4
fd 0 0 ip 0
fd 0 1 eth 0
fd 0 2 eth 1
link 2 ip 0 eth 1 link
route ip 5 2
msg eth 0 w 1 5 aa
hung eth 0
"""),
    # The third of some messages that were held up together has another address, and goes elsewhere.
    ("""\
0 clone ip = fd 0 0
0 clone eth = fd 1 0
0 clone eth = fd 2 1
0 link 0 1 = id 1
0 link 0 2 = id 2
0 route 0 5 1 = done
0 route 0 6 2 = done
0 write 0 5 0102030405060708 = took 1
0 write 0 5 aa = took 2
0 write 0 5 bb = took 3
0 write 0 6 cc = took 4
0 write 0 5 dd = took 5
0 transmit eth 1 = EAGAIN empty
0 transmit eth 0 = got 1 5 0102030405060708
0 transmit eth 0 = got 2 5 aa
0 transmit eth 0 = got 3 5 bb
0 transmit eth 0 = got 5 5 dd
0 transmit eth 0 = EAGAIN empty
0 transmit eth 1 = got 4 6 cc
0 transmit eth 1 = EAGAIN empty
""",
     """\
next 3 6
fd 0 0 ip 0
fd 0 1 eth 0
fd 0 2 eth 1
link 1 ip 0 eth 0 link
link 2 ip 0 eth 1 link
route ip 5 1
route ip 6 2
"""),
    # Two of three that were held up go on, since the place is full then; and a fourth waits after the third.
    ("""\
0 clone ip = fd 0 0
0 clone eth = fd 1 0
0 link 0 1 = id 1
0 route 0 5 1 = done
0 write 0 5 0102030405 = took 1
0 write 0 5 060708 = took 2
0 write 0 5 a1a2a3a4 = took 3
0 write 0 5 b1b2b3 = took 4
0 write 0 5 c1 = took 5
0 write 0 5 d1 = EAGAIN full
0 transmit eth 0 = got 1 5 0102030405
0 write 0 5 d1 = took 6
""",
     """\
next 2 7
fd 0 0 ip 0
fd 0 1 eth 0
link 1 ip 0 eth 0 link
route ip 5 1
msg ip 0 w 5 5 c1
msg ip 0 w 6 5 d1
msg eth 0 w 2 5 060708
msg eth 0 w 3 5 a1a2a3a4
msg eth 0 w 4 5 b1b2b3
full eth 0 w
"""),
]

# Short histories.
SHORT = [
    ("0 clone ip = fd 0 0\n",
     "next 1 1\nfd 0 0 ip 0\n"),
    ("0 clone ip = fd 0 0\n0 clone ip = fd 1 1\n",
     "next 1 1\nfd 0 0 ip 0\nfd 0 1 ip 1\n"),
    # A persistent link outlives its maker.
    ("""\
0 clone ip = fd 0 0
0 clone eth = fd 1 0
0 plink 0 1 = id 1
0 route 0 7 1 = done
0 exit = done
0 inject eth 0 9 aa = took 1
0 clone ip = fd 0 0
0 punlink 0 all = done 1
0 transmit eth 0 = ENXIO minor
""",
     "next 2 2\nfd 0 0 ip 0\n"),
]

# Sizes of messages, and the end of a stream: the drivers too.
SIZES = [
    ("driver eth leaf 1 4 0 2\n",
     """\
0 clone eth = fd 0 0
0 write 0 5 - = ERANGE
0 write 0 5 aabb = took 1
0 inject eth 0 4294967295 ccdd = took 2
0 read 0 = got 2 4294967295 ccdd
0 clone eth = ENXIO minor
0 clone tr = ENXIO driver
0 write 0 5 aabb = took 3
0 write 0 5 aabb = EAGAIN full
0 flush 0 w = done 1 3
0 write 0 5 01 = took 4
0 close 0 = done 4
""",
     "next 1 5\n"),
]

# Entries and a view, and the verdict.
JUDGED = [
    ("", "next 1 1\n", "legal 0"),
    ("0 clone ip = fd 0 0\n", "next 1 1\nfd 0 0 ip 0\n", "legal 1"),
    ("0 clone ip = fd 0 0\n", "next 1 1\n", "config differs"),
    ("0 clone ip = fd 0 1\n", "next 1 1\nfd 0 0 ip 0\n", "illegal 1"),
    ("0 clone ip = fd 0 0\n1 clone ip = fd 0 1\n", "next 1 1\nfd 0 0 ip 0\nfd 1 0 ip 1\n", "legal 2"),
    ("0 clone ip = fd 0 0\n1 clone ip = fd 0 2\n", "next 1 1\nfd 0 0 ip 0\nfd 1 0 ip 1\n", "illegal 2"),
    ("1 clone ip = fd 0 1\n0 clone ip = fd 0 0\n", "next 1 1\nfd 0 0 ip 0\nfd 1 0 ip 1\n", "illegal 1"),
    ("0 clone ip = fd 0 0\n1 clone ip = fd 0 1\n", "next 1 1\nfd 0 0 ip 0\nfd 1 0 ip 2\n", "config differs"),
    ("0 clone ip = fd 0 0\n1 clone eth = fd 0 0\n", "next 1 1\nfd 0 0 ip 0\nfd 1 0 eth 0\n", "legal 2"),
    ("1 clone eth = fd 0 0\n0 clone ip = fd 0 0\n", "next 1 1\nfd 0 0 ip 0\nfd 1 0 eth 0\n", "legal 2"),
    ("0 unlink 4294967295 4294967295 = EBADF fd\n", "next 1 1\n", "legal 1"),
    ("0 unlink 4294967295 4294967295 = EBADF fd\n", "next 1 2\n", "config differs"),
    ("0 close 0 = id 5\n", "next 1 1\n", "illegal 1"),
    # The first of two, and whatever the view is.
    ("0 clone ip = fd 0 0\n1 clone ip = fd 0 2\n0 close 0 = id 5\n0 exit = done\n",
     "next 1 1\nfd 1 0 ip 1\n", "illegal 2"),
    ("0 clone ip = fd 0 0\n1 clone ip = fd 0 2\n0 close 0 = id 5\n0 exit = done\n", "next 7 7\n", "illegal 2"),
]

MARKS = """\
0 clone ip = fd 0 0
0 clone eth = fd 1 0
0 link 0 1 = id 1
0 route 0 5 1 = done
0 write 0 5 00000001 = took 1
0 write 0 5 00000002 = took 2
0 write 0 5 00000003 = took 3
0 write 0 5 00000004 = took 4
0 write 0 5 00000005 = EAGAIN full
0 transmit eth 0 = got 1 5 00000001
0 write 0 5 00000005 = EAGAIN full
0 transmit eth 0 = got 2 5 00000002
0 write 0 5 00000005 = took 5
"""

AFTER_MARKS = """\
next 2 6
fd 0 0 ip 0
fd 0 1 eth 0
link 1 ip 0 eth 0 link
route ip 5 1
msg ip 0 w 5 5 00000005
msg eth 0 w 3 5 00000003
msg eth 0 w 4 5 00000004
full eth 0 w
"""

BOUND = "0 clone ip = fd 0 0\n0 bind 0 9 = done\n"

BOTH = "0 clone eth = fd 0 0\n0 clone eth = fd 1 1\n0 hangup eth 1 = done\n0 hangup eth 0 = done\n"

AFTER_BOTH = "next 1 1\nfd 0 0 eth 0\nfd 0 1 eth 1\nhung eth 0\nhung eth 1\n"

AFTER_BOUND = "next 1 1\nfd 0 0 ip 0\nbind ip 9 0\n"

# Lines of the view after the marks were reached, and the lines that the transcript claims in their place.
OF_MARKS = [
    ("next 2 6", "next 3 6"),
    ("next 2 6", "next 2 5"),
    ("fd 0 1 eth 0\n", ""),
    ("fd 0 1 eth 0", "fd 1 1 eth 0"),
    ("fd 0 1 eth 0", "fd 0 2 eth 0"),
    ("fd 0 1 eth 0", "fd 0 1 ip 0"),
    ("fd 0 1 eth 0", "fd 0 1 eth 1"),
    ("fd 0 1 eth 0", "fd 0 1 eth 0\nfd 0 2 eth 0"),
    ("fd 0 0 ip 0\nfd 0 1 eth 0", "fd 0 1 eth 0\nfd 0 0 ip 0"),
    ("link 1 ip 0 eth 0 link\n", ""),
    ("link 1 ip 0 eth 0 link", "link 2 ip 0 eth 0 link"),
    ("link 1 ip 0 eth 0 link", "link 1 eth 0 eth 0 link"),
    ("link 1 ip 0 eth 0 link", "link 1 ip 1 eth 0 link"),
    ("link 1 ip 0 eth 0 link", "link 1 ip 0 ip 0 link"),
    ("link 1 ip 0 eth 0 link", "link 1 ip 0 eth 1 link"),
    ("link 1 ip 0 eth 0 link", "link 1 ip 0 eth 0 plink"),
    ("route ip 5 1\n", ""),
    ("route ip 5 1", "bind ip 5 0\nroute ip 5 1"),
    ("route ip 5 1", "route eth 5 1"),
    ("route ip 5 1", "route ip 6 1"),
    ("route ip 5 1", "route ip 5 2"),
    ("msg ip 0 w 5 5 00000005\n", ""),
    ("msg ip 0 w 5 5 00000005", "msg tr 0 w 5 5 00000005"),
    ("msg ip 0 w 5 5 00000005", "msg ip 1 w 5 5 00000005"),
    ("msg ip 0 w 5 5 00000005", "msg ip 0 r 5 5 00000005"),
    ("msg ip 0 w 5 5 00000005", "msg ip 0 w 6 5 00000005"),
    ("msg ip 0 w 5 5 00000005", "msg ip 0 w 5 6 00000005"),
    ("msg ip 0 w 5 5 00000005", "msg ip 0 w 5 5 00000006"),
    ("msg ip 0 w 5 5 00000005", "msg ip 0 w 5 5 000005"),
    ("msg eth 0 w 4 5 00000004\n", ""),
    ("full eth 0 w\n", ""),
    ("full eth 0 w", "full ip 0 w"),
    ("full eth 0 w", "full eth 1 w"),
    ("full eth 0 w", "full eth 0 r"),
    ("full eth 0 w", "full eth 0 w\nfull eth 0 w"),
    ("full eth 0 w", "full ip 0 w\nfull eth 0 w"),
]

# The same with an address that is bound.
OF_BOUND = [
    ("bind ip 9 0\n", ""),
    ("bind ip 9 0", "bind eth 9 0"),
    ("bind ip 9 0", "bind ip 8 0"),
    ("bind ip 9 0", "bind ip 9 1"),
]

# The same after two hangups.
OF_BOTH = [
    ("hung eth 0\n", ""),
    ("hung eth 1\n", ""),
    ("hung eth 1\n", "hung eth 1\nhung eth 1\n"),
    ("hung eth 0\nhung eth 1\n", "hung eth 1\nhung eth 0\n"),
    ("hung eth 0", "hung ip 0"),
    ("hung eth 1", "hung eth 2"),
]

# After both hangups, a last entry with a wrong reply.
ILLEGAL = [
    "0 hangup eth 0 = ENXIO hangup\n",
    "0 hangup eth 0 = done 1\n",
    "0 read 0 = EAGAIN empty\n",
    "0 read 0 = ENXIO hangup\n",
    "0 write 0 5 aa = took 1\n",
    "0 write 0 5 - = ERANGE\n",
    "0 transmit eth 0 = EAGAIN empty\n",
    "0 hangup ip 0 = ENXIO minor\n",
]


def waiting_for_a_device():
    """Two levels of multiplexers, where 64 streams wait for one full place over a device: before the device takes any
    message, and when it has taken all. Each time that the place takes messages again, the least stream goes first."""
    # The queues of the two lower drivers take one byte, and then none until they are empty. Process 0 has a stream of
    # each driver, one below the other, and each other process has the stream of its number.
    drivers = "driver top mux 64 8 3 16\ndriver mid mux 1 1 0 16\ndriver eth leaf 1 1 0 16\n"
    down = ["0 clone top = fd 0 0", "0 clone mid = fd 1 0", "0 clone eth = fd 2 0", "0 link 1 2 = id 1",
            "0 route 1 5 1 = done", "0 link 0 1 = id 2", "0 route 0 5 2 = done"]
    streams = [f"{n} clone top = fd 0 {n}" for n in range(1, 64)]
    # The first messages of stream 0 fill the places below the streams. Two rounds of messages wait after them, one from
    # each stream in a round, the last stream first.
    first = ["0 write 0 5 00 = took 1", "0 write 0 5 00 = took 2"]
    rounds = [f"{63 - n} write 0 5 {63 - n:02x} = took {n + before}" for before in [3, 67] for n in range(64)]
    opened = ["fd 0 0 top 0", "fd 0 1 mid 0", "fd 0 2 eth 0", *(f"fd {n} 0 top {n}" for n in range(1, 64))]
    linked = ["link 1 mid 0 eth 0 link", "link 2 top 0 mid 0 link", "route top 5 2", "route mid 5 1"]
    held = [f"msg top {n} w {serial - n} 5 {n:02x}" for n in range(64) for serial in [66, 130]]
    full = ["msg mid 0 w 2 5 00", "msg eth 0 w 1 5 00", "full mid 0 w", "full eth 0 w"]
    waiting = down + streams + first + rounds
    yield drivers, lines(waiting), lines(["next 3 131"] + opened + linked + held + full)

    # A message that comes late on the least stream goes before all that still wait on others.
    def taken(least, end):
        return [f"0 transmit eth 0 = got {serial - n} 5 {n:02x}" for n in range(least, end) for serial in [66, 130]]

    all_taken = ["0 transmit eth 0 = got 1 5 00", "0 transmit eth 0 = got 2 5 00", *taken(0, 32),
                 "0 write 0 5 00 = took 131", *taken(32, 33), "0 transmit eth 0 = got 131 5 00", *taken(33, 64),
                 "0 transmit eth 0 = EAGAIN empty"]
    yield drivers, lines(waiting + all_taken), lines(["next 3 132"] + opened + linked)


def waiting_for_a_reader():
    """The same of 64 devices that wait for a reader."""
    # The stream between the devices and the reader takes three messages at once, and there is a persistent link to each
    # device. Any process may ask a device.
    drivers = "driver top mux 1 1 0 16\ndriver mid mux 1 3 0 16\ndriver eth leaf 64 8 3 16\n"
    up = ["0 clone mid = fd 0 0"]
    for n in range(64):
        up += [f"0 clone eth = fd 1 {n}", f"0 plink 0 1 = id {n + 1}", "0 close 1 = done"]
    up += ["0 bind 0 5 = done", "0 clone top = fd 1 0", "0 bind 1 5 = done", "0 link 1 0 = id 65"]
    first = [f"0 inject eth 0 5 00 = took {n + 1}" for n in range(4)]
    rounds = [f"{63 - n} inject eth {63 - n} 5 {63 - n:02x} = took {n + before}"
              for before in [5, 69] for n in range(64)]
    shown = ["fd 0 0 mid 0", "fd 0 1 top 0", *(f"link {n + 1} mid 0 eth {n} plink" for n in range(64)),
             "link 65 top 0 mid 0 link", "bind top 5 0", "bind mid 5 0"]
    held = ["msg top 0 r 1 5 00", "msg mid 0 r 2 5 00", "msg mid 0 r 3 5 00", "msg mid 0 r 4 5 00"]
    held += [f"msg eth {n} r {serial - n} 5 {n:02x}" for n in range(64) for serial in [68, 132]]
    waiting = up + first + rounds
    yield drivers, lines(waiting), lines(["next 66 133"] + shown + held + ["full top 0 r", "full mid 0 r"])

    def read(least, end):
        return [f"0 read 1 = got {serial - n} 5 {n:02x}" for n in range(least, end) for serial in [68, 132]]

    all_read = [f"0 read 1 = got {n + 1} 5 00" for n in range(4)] + read(0, 32)
    all_read += ["0 inject eth 0 5 00 = took 133", *read(32, 33), "0 read 1 = got 133 5 00", *read(33, 64)]
    yield drivers, lines(waiting + all_read + ["0 read 1 = EAGAIN empty"]), lines(["next 66 134"] + shown)


def lines(of):
    return "".join(f"{line}\n" for line in of)


def worked():
    """Drivers, entries and a view of each worked history."""
    yield from ((IP_AND_ETH, *history) for history in HANGUPS + WAYS + SHORT)
    yield from SIZES
    yield from waiting_for_a_device()
    yield from waiting_for_a_reader()


def judged():
    """Entries and a view over `ip` and `eth`, and the verdict."""
    yield from JUDGED
    differ = [(MARKS, AFTER_MARKS, OF_MARKS), (BOUND, AFTER_BOUND, OF_BOUND), (BOTH, AFTER_BOTH, OF_BOTH)]
    for entries, view, claims in differ:
        yield entries, view, f"legal {entries.count(chr(10))}"
        for stands, claim in claims:
            assert stands in view
            yield entries, view.replace(stands, claim, 1), "config differs"
    for last in ILLEGAL:
        yield BOTH + last, AFTER_BOTH, "illegal 5"
