"""Transcripts that show more than examples do: many links, many drivers, cycles, and what no configuration shows."""


def transcript(drivers, lines, version=1, following="next 9 9"):
    return "\n".join([f"transcript {version}", *drivers, "config", following, *lines, "end", ""]).encode()


def many_links():
    """A multiplexer above three drivers, with 180 links of both kinds below it."""
    drivers = ["driver top mux 64 4096 1024 1024"]
    drivers += [f"driver eth{i} leaf 64 4096 1024 1024" for i in range(3)]
    lines = ["fd 0 0 top 0"]
    lines += [f"link {i + 1} top 0 eth{i % 3} {i // 3} {'plink' if i % 4 == 0 else 'link'}" for i in range(180)]
    return transcript(drivers, lines, following="next 181 1")


def pyramid():
    """Eight layers of sixteen drivers, each linked below two of the layer above."""
    drivers, lines, number = [], [], 0
    for layer in range(8):
        for i in range(16):
            drivers.append(f"driver d{layer}x{i} {'leaf' if layer == 7 else 'mux'} 8 64 16 32")
    for layer in range(7):
        for i in range(16):
            for step in 0, 1:
                number += 1
                lines.append(f"link {number} d{layer}x{i} 0 d{layer + 1}x{(i + step) % 16} {step} link")
    return transcript(drivers, lines, version=2, following=f"next {number + 1} 1")


def many_frames():
    """60 drivers in three layers, with 180 links of both kinds between them; half of the controlling streams are gone."""
    drivers = [f"driver d{i} {'leaf' if i >= 40 else 'mux'} 64 64 16 32" for i in range(60)]
    lines = [f"fd {i} 0 d{i} 0" for i in range(0, 60, 2)]
    for i in range(180):
        upper = i * 7 % 40
        lower = 20 + i * 11 % 40 if upper < 20 else 40 + i * 13 % 20
        lines.append(f"link {i + 1} d{upper} 0 d{lower} {i % 60 + 1} {'plink' if i % 3 == 0 else 'link'}")
    return transcript(drivers, lines, following="next 181 1")


def many_drivers():
    """128 drivers, of which 20 have the others below them."""
    drivers = [f"driver d{i} {'mux' if i < 20 else 'leaf'} 8 64 16 32" for i in range(128)]
    lines = [f"link {i + 1} d{i % 20} {i // 20} d{i + 20} 0 {'link' if i % 3 else 'plink'}" for i in range(108)]
    return transcript(drivers, lines, version=2, following="next 109 1")


def largest_numbers():
    """The longest names and the largest numbers."""
    most = 4294967295
    drivers = [f"driver abcdefgh mux {most} {most} {most} {most}", "driver zzzzzzzz leaf 64 4096 4095 1024"]
    lines = [f"fd 63 {most} abcdefgh {most}", f"link {most} abcdefgh {most} zzzzzzzz 63 plink", f"bind abcdefgh {most} {most}"]
    lines += [f"route abcdefgh {most} {most}", f"msg abcdefgh {most} w {most} {most} {'ff' * 1024}"]
    lines += [f"msg zzzzzzzz 63 r {most - 1} 3232235779 {'ff' * 10}", f"full abcdefgh {most} w"]
    return transcript(drivers, lines, following=f"next {most} {most}")


def thousands():
    """Queues of 4,098 and of 3,000 messages, full and hung up."""
    drivers = ["driver ip mux 2 4096 8 1024", "driver eth leaf 2 4096 2000 1024"]
    lines = ["link 1 ip 0 eth 1 plink"]
    lines += [f"msg ip 1 w {i} {i % 7} {'ab' * (i % 7 + 1)}" for i in range(1, 4099)]
    lines += [f"msg eth 1 w {i} 5 {'00' * 8}" for i in range(5000, 8000)]
    lines += ["full ip 1 w", "full eth 1 w", "full eth 1 r", "hung eth 1"]
    return transcript(drivers, lines, version=2, following="next 2 9000")


def long_queues():
    """Queues of many messages, full and not, on both sides."""
    drivers = ["driver ip mux 2 4096 8 1024", "driver eth leaf 2 64 8 1024"]
    lines = ["link 1 ip 0 eth 1 plink"]
    lines += [f"msg ip 1 r {i} 4294967295 {'ab' * (i % 7 + 1)}" for i in range(1, 40)]
    lines += [f"msg eth 1 w {i} 5 {'00' * 8}" for i in range(40, 49)]
    lines += ["full eth 1 w", "hung eth 1"]
    return transcript(drivers, lines, version=2, following="next 2 49")


def cycle():
    """Links that no history has: two drivers, each below the other, and one below itself."""
    drivers = [f"driver {name} mux 4 8 3 16" for name in ("a", "b", "c")]
    lines = ["link 1 a 0 b 0 link", "link 2 b 1 a 1 plink", "link 3 c 0 c 1 link"]
    return transcript(drivers, lines)


def of_no_driver():
    """Streams of what is no driver of the transcript, minors that no driver has, and lines that stand twice."""
    lines = ["fd 0 0 node 4294967295", "fd 63 4294967295 graph 64", "fd 0 0 node 4294967295"]
    lines += ["link 4294967295 edge 65 subgraph 66 link", "link 4294967295 edge 65 eth 99 plink"]
    lines += ["bind strict 4294967295 7", "route digraph 1 1", "msg node 0 w 4294967295 0 ff", "msg eth 70 r 0 0 -"]
    lines += ["full eth 1 w", "hung digraph 4294967295"]
    return transcript(["driver eth leaf 2 8 3 16"], lines, version=2, following="next 4294967295 4294967295")


def of_one_minor():
    """Streams of what is no driver, of one minor: the second one has a message."""
    return transcript([], ["fd 0 0 zz 5", "fd 1 0 yy 5", "msg yy 5 w 1 7 aa"])


def behind_the_last_minor():
    """Minors that no driver has, one of them hung up."""
    lines = ["fd 0 0 eth 63", "fd 0 1 eth 64", "fd 0 2 eth 65", "fd 0 3 eth 4294967295", "hung eth 65"]
    return transcript(["driver eth leaf 64 8 3 16"], lines, version=2)


def of_one_name():
    """Drivers of one name: the first one has the streams, the links and the routes."""
    drivers = ["driver ip mux 4 16 8 16", "driver eth leaf 2 8 3 16", "driver ip leaf 9 32 2 4", "driver eth mux 3 6 5 7"]
    lines = ["fd 0 0 ip 0", "link 1 ip 0 eth 1 link", "route ip 7 1", "msg eth 1 w 1 7 aabb", "full eth 1 w"]
    return transcript(drivers, lines)


def routes_of_no_driver():
    """Routes of what is no driver, which has a link below it and no stream."""
    lines = ["link 1 zz 0 eth 0 link", "route zz 1 1", "route yy 2 1", "route zz 3 1"]
    return transcript(["driver eth leaf 2 8 3 16"], lines)


def many_lines():
    """200,000 descriptors of 20,000 streams, half of which are of no driver."""
    lines = [f"fd {i % 64} {i} {'eth' if i % 2 == 0 else 'zz'} {i * 7 % 20_000}" for i in range(200_000)]
    return transcript(["driver eth leaf 2 8 3 16"], lines)


def transcripts():
    yield "nothing at all", transcript([], [])
    yield "180 links", many_links()
    yield "eight layers", pyramid()
    yield "60 drivers", many_frames()
    yield "128 drivers", many_drivers()
    yield "largest numbers", largest_numbers()
    yield "thousands", thousands()
    yield "long queues", long_queues()
    yield "cycle", cycle()
    yield "no driver", of_no_driver()
    yield "one minor", of_one_minor()
    yield "last minor", behind_the_last_minor()
    yield "one name", of_one_name()
    yield "routes of no driver", routes_of_no_driver()
    yield "many lines", many_lines()
