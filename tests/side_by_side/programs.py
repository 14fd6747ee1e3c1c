"""Random programs of all eighteen commands, each text of a seed of its own over drivers of its own."""
import collections
import random

MOST_DESCRIPTORS = 16
MOST_LINKS = 1024
LARGEST = 4294967295

# The words after that of a command, and how often the command is drawn.
COMMANDS = {
    "clone": (["driver"], 6), "open": (["new"], 4), "dup": (["fd"], 2), "close": (["fd"], 2), "exit": ([], 0.2),
    "link": (["fd", "fd"], 10), "plink": (["fd", "fd"], 8), "unlink": (["fd", "which"], 3), "punlink": (["fd", "which"], 1),
    "bind": (["fd", "addr"], 8), "unbind": (["fd"], 1), "route": (["fd", "addr", "link"], 10), "unroute": (["fd", "addr"], 1),
    "write": (["fd", "addr", "message"], 20), "read": (["fd"], 20), "flush": (["fd", "sides"], 1),
    "inject": (["stream", "addr", "message"], 20), "transmit": (["stream"], 16)}
REFUSABLE = [word for word in COMMANDS if word != "exit"]

Driver = collections.namedtuple("Driver", "name kind minors high low most")
Link = collections.namedtuple("Link", "upper lower kind")


class Idea:
    """A rough idea of what is open, linked, bound, routed and queued. It has a method for each command, which tells whether
    that is likely to be accepted, and then notes what comes of it."""

    def __init__(self, drivers):
        self.drivers = {driver.name: driver for driver in drivers}
        self.fds = {}
        self.opens = collections.Counter()
        self.links = {}
        self.above = {}
        self.next_id = 1
        self.addresses = {}
        self.routes = {}
        self.queued = collections.defaultdict(list)

    def accepts(self, words):
        return bool(getattr(self, words[0])(*words[1:]))

    def exists(self, stream):
        above = self.links.get(self.above.get(stream))
        return self.opens[stream] > 0 or above and (above.kind == "plink" or self.exists(above.upper))

    def has(self, name, minor):
        return name in self.drivers and minor < self.drivers[name].minors

    def is_leaf(self, stream):
        return self.has(*stream) and self.drivers[stream[0]].kind == "leaf" and self.exists(stream)

    def free(self, fd):
        """The stream of the descriptor, if it is not below."""
        stream = self.fds.get(fd)
        return None if stream in self.above else stream

    def mux(self, fd):
        """The same, if it is one of a multiplexer."""
        stream = self.free(fd)
        return stream if stream and self.drivers[stream[0]].kind == "mux" else None

    def reached_from(self, driver):
        """The driver, and all to which a path of links leads from it."""
        found = {driver}
        pairs = {(link.upper[0], link.lower[0]) for link in self.links.values()}
        while more := {lower for upper, lower in pairs if upper in found} - found:
            found |= more
        return found

    def remove(self, links):
        for link in links:
            del self.above[self.links.pop(link).lower]
        return bool(links)

    def sweep(self):
        while self.remove([i for i, link in self.links.items() if link.kind == "link" and not self.exists(link.upper)]):
            pass
        self.addresses = {stream: addr for stream, addr in self.addresses.items() if self.exists(stream)}
        self.routes = {key: link for key, link in self.routes.items() if link in self.links}

    def opened(self, stream):
        if len(self.fds) == MOST_DESCRIPTORS:
            return False
        self.fds[min(set(range(MOST_DESCRIPTORS)) - set(self.fds))] = stream
        self.opens[stream] += 1
        return True

    def clone(self, name):
        minors = self.drivers[name].minors if name in self.drivers else 0
        free = [minor for minor in range(minors) if not self.exists((name, minor))]
        return free and self.opened((name, free[0]))

    def open(self, stream):
        return self.has(*stream) and stream not in self.above and self.opened(stream)

    def dup(self, fd):
        return fd in self.fds and self.opened(self.fds[fd])

    def close(self, fd):
        if fd not in self.fds:
            return False
        stream = self.fds.pop(fd)
        self.opens[stream] -= 1
        if not self.exists(stream):
            self.sweep()
        return True

    def exit(self):
        return all(self.close(fd) for fd in list(self.fds))

    def link(self, fd, arg, kind="link"):
        upper, lower = self.mux(fd), self.free(arg)
        if not upper or not lower or upper[0] in self.reached_from(lower[0]):
            return False
        if len(self.links) < MOST_LINKS:
            self.links[self.next_id] = Link(upper, lower, kind)
            self.above[lower] = self.next_id
            self.next_id += 1
        return True

    def plink(self, fd, arg):
        return self.link(fd, arg, "plink")

    def unlinks(self, which, is_meant):
        is_any = self.remove([i for i, link in self.links.items() if is_meant(link) and which in [i, "all"]])
        self.sweep()
        return is_any

    def unlink(self, fd, which):
        upper = self.mux(fd)
        return upper and self.unlinks(which, lambda link: link.kind == "link" and link.upper == upper)

    def punlink(self, fd, which):
        upper = self.mux(fd)
        return upper and self.unlinks(which, lambda link: link.kind == "plink" and link.upper[0] == upper[0])

    def bind(self, fd, addr):
        stream = self.mux(fd)
        if not stream or stream in self.addresses:
            return False
        if (stream[0], addr) in [(other[0], its) for other, its in self.addresses.items()]:
            return False
        self.addresses[stream] = addr
        return True

    def unbind(self, fd):
        return self.addresses.pop(self.mux(fd), None) is not None

    def route(self, fd, addr, link):
        stream = self.mux(fd)
        if not stream or link not in self.links or self.links[link].upper[0] != stream[0]:
            return False
        self.routes[stream[0], addr] = link
        return True

    def unroute(self, fd, addr):
        stream = self.mux(fd)
        return stream and self.routes.pop((stream[0], addr), None) is not None

    def end_of(self, stream, side, addr):
        """Where a message comes to rest, if nothing is full."""
        while side == "w" and (stream[0], addr) in self.routes:
            stream = self.links[self.routes[stream[0], addr]].lower
        while side == "r" and stream in self.above:
            upper = self.links[self.above[stream]].upper[0]
            bound = [other for other, its in self.addresses.items() if (other[0], its) == (upper, addr)]
            if not bound:
                break
            stream = bound[0]
        return stream, side

    def sends(self, stream, side, addr, message):
        """Messages may wait on their way to a full queue, but not too many."""
        driver, queue = self.drivers[stream[0]], self.queued[self.end_of(stream, side, addr)]
        if not 0 < len(message) <= driver.most or sum(queue) >= 2 * driver.high or len(queue) > 40:
            return False
        queue.append(len(message))
        return True

    def takes(self, stream, side):
        queue = self.queued[stream, side]
        return queue and queue.pop(0)

    def write(self, fd, addr, message):
        stream = self.free(fd)
        return stream and self.sends(stream, "w", addr, message)

    def read(self, fd):
        return self.takes(self.free(fd), "r")

    def flush(self, fd, sides):
        stream = self.free(fd)
        for side in sides:
            self.queued.pop((stream, side), None)
        return stream

    def inject(self, stream, addr, message):
        return self.is_leaf(stream) and self.sends(stream, "r", addr, message)

    def transmit(self, stream):
        return self.is_leaf(stream) and self.takes(stream, "w")


class Draws:
    """Random commands, whose words are mostly those of what is there."""

    def __init__(self, chance, idea):
        self.chance = chance
        self.idea = idea
        self.addresses = chance.sample([0, 5, 9, LARGEST], chance.randrange(1, 4))

    def mostly(self, usual, other):
        return self.chance.choice(usual if usual and self.chance.random() < 0.8 else other)

    def fd(self):
        return self.mostly(list(self.idea.fds), [0, 7, 15, 16, LARGEST])

    def driver(self):
        return self.mostly(list(self.idea.drivers), ["nosuch"])

    def new(self):
        return self.driver(), self.mostly(range(4), [15, 63, 64, LARGEST])

    def stream(self):
        return self.mostly([*self.idea.above, *self.idea.fds.values()], [self.new()])

    def addr(self):
        return self.mostly(self.addresses, [4, LARGEST - 1])

    def link(self):
        return self.mostly(list(self.idea.links), [0, self.idea.next_id, LARGEST])

    def which(self):
        return self.mostly([self.link()], ["all"])

    def sides(self):
        return self.chance.choice(["r", "w", "rw"])

    def message(self):
        return self.chance.randbytes(self.mostly(range(1, 5), [0, 16, 17, 1024, 1025]))

    def words_of(self, word):
        """A command that begins with this word."""
        return [word, *(getattr(self, kind)() for kind in COMMANDS[word][0])]

    def command(self, often):
        """Now and then any command, and else the first one of some that is likely to be accepted."""
        if self.chance.random() < 0.2:
            words = self.words_of(self.chance.choice(REFUSABLE))
            self.idea.accepts(words)
            return words
        if not self.idea.fds:
            often = {"clone": 2, "open": 1}
        for word in self.chance.choices(list(often), often.values(), k=12):
            words = self.words_of(word)
            if self.idea.accepts(words):
                break
        return words

    def program(self, length, liked=()):
        """Some commands of a process, which likes some of them more than others."""
        self.idea.fds = {}
        often = {word: often * self.chance.choice([0.25, 1, 1, 4]) for word, (_, often) in COMMANDS.items()}
        often |= dict.fromkeys(liked, 40)
        return [self.command(often) for _ in range(length)]

    def many_links(self):
        """A program that makes nearly as many links as there may be, from one stream to streams of all leaves."""
        self.idea.fds = {}
        commands = [["open", ("m0", 40)]]
        for number in range(MOST_LINKS - 1):
            commands += [["clone", f"l{number // 64}"], ["link", 0, 1], ["close", 1]]
        for words in commands:
            self.idea.accepts(words)
        return commands


def drivers(chance):
    """A multiplexer, a leaf, and others of both kinds in any order."""
    kinds = ["mux", "leaf"] + chance.choices(["mux", "mux", "leaf"], k=chance.choice([1, 4, 10, 62]))
    chance.shuffle(kinds)
    made = []
    for number, kind in enumerate(kinds):
        high = chance.choice([1, 4, 16, 4096])
        made.append(Driver(f"{kind[0]}{number}", kind, chance.choice([1, 2, 8, 64]), high, chance.randrange(high),
                           chance.choice([1, 4, 16, 1024])))
    return made


def wide_drivers():
    """Two multiplexers over 17 leaves, all with as many minors as there may be."""
    return ([Driver(f"m{number}", "mux", 64, 16, 3, 16) for number in range(2)]
            + [Driver(f"l{number}", "leaf", 64, 4, 1, 16) for number in range(17)])


def word_of(value):
    if isinstance(value, bytes):
        return value.hex() or "-"
    return " ".join(map(str, value)) if isinstance(value, tuple) else str(value)


def text_of(all_drivers, programs):
    lines = ["programs 1"] + [" ".join(["driver", *map(str, driver)]) for driver in all_drivers]
    for number, commands in enumerate(programs):
        lines += [f"process {number}"] + [" ".join(map(word_of, words)) for words in commands]
    return "".join(f"{line}\n" for line in [*lines, "end"])


def text(seed, is_wide, length):
    """The programs text of a seed, with some so many commands; where it is wide, behind a program of many links."""
    chance = random.Random(seed)
    made = wide_drivers() if is_wide else drivers(chance)
    draws = Draws(chance, Idea(made))
    count = chance.choice([1, 4, 16, 63])
    if is_wide:
        programs = [draws.many_links()] + [draws.program(length // count, ["link", "plink"]) for _ in range(count)]
    else:
        programs = [draws.program(length // count) for _ in range(count)]
    return text_of(made, programs)
