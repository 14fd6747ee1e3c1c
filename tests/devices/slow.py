"""Devices that are slow, that are not waited for, and runs that are stopped and go on."""
import fcntl
import os
import signal
import subprocess
import time

from ends import (MUXSIM, PROGRAMS, PROGRAMS_2, READ, SECONDS, TRANSCRIPT, TRANSCRIPT_2, WRITE, is_so, long_programs,
                  long_transcript, outcome, start)


def pieces(name, words, given, sizes, pause, wanted):
    """The input comes through a pipe, in pieces of these sizes, with pauses between them."""
    process = start(words)
    place = 0
    for size in sizes:
        process.stdin.write(given[place:place + size])
        process.stdin.flush()
        place += size
        time.sleep(pause)
    process.stdin.write(given[place:])
    process.stdin.close()
    is_so(f"{name}, {words}", outcome(process, process.stdout.read()) == (0, wanted, b""))


def inputs():
    for words, given, wanted in [(["run"], PROGRAMS, TRANSCRIPT), (["check"], TRANSCRIPT, b"legal 4\n"),
                                 (["run"], PROGRAMS_2, TRANSCRIPT_2), (["check"], TRANSCRIPT_2, b"legal 28\n"),
                                 (["replay"], TRANSCRIPT, TRANSCRIPT), (["replay"], TRANSCRIPT_2, TRANSCRIPT_2),
                                 (["run", "--workers", "1", "--fronts"], PROGRAMS, b"fronts 1\nfront 0 4 0\nend\n")]:
        pieces("byte by byte", words, given, [1] * len(given), 0.001, wanted)
        pieces("in pieces", words, given, [0, 11, 20, 3, 2], 0.05, wanted)
    for programs in [PROGRAMS, PROGRAMS_2]:
        for where in range(0, len(programs), 9):
            process = start(["run"])
            process.stdin.write(programs[:where])
            process.stdin.close()
            line = "muxsim: line %d: cut\n" % (programs[:where].count(b"\n") + 1)
            got = outcome(process, process.stdout.read())
            is_so(f"a pipe that is closed after {where} bytes of input", got == (3, b"", line.encode()), got)


def outputs():
    """An output of some 300,000 bytes, read in small pieces through a pipe that holds 4,096 bytes."""
    for version, words in [(1, ["run"]), (1, ["run", "--workers", "1"]), (2, ["run"])]:
        text, whole = long_programs(version), long_transcript(version)
        for piece in [1, 1000]:
            process = start(words, text, pipe_size=4096)
            written = bytearray()
            while part := os.read(process.stdout.fileno(), piece):
                written += part
            is_so(f"an output read by {piece} bytes", outcome(process, bytes(written)) == (0, whole, b""))


def without_waiting():
    """Pipes that answer 'try again', which is a read or a write that failed."""
    ours, theirs = os.pipe()
    os.set_blocking(ours, False)
    ran = subprocess.run([MUXSIM, "run"], stdin=ours, capture_output=True, timeout=SECONDS)
    is_so("an input that is not waited for", (ran.returncode, ran.stdout, ran.stderr) == (5, b"", READ.encode()), ran)
    os.close(ours)
    os.close(theirs)
    ours, theirs = os.pipe()
    fcntl.fcntl(theirs, fcntl.F_SETPIPE_SZ, 4096)
    os.set_blocking(theirs, False)
    ran = subprocess.run([MUXSIM, "run"], input=long_programs(), stdout=theirs, stderr=subprocess.PIPE, timeout=SECONDS)
    os.close(theirs)
    with open(ours, "rb") as pipe:
        written = pipe.read()
    whole = long_transcript()
    right = (ran.returncode, ran.stderr) == (5, WRITE.encode()) and written == whole[:len(written)]
    is_so("an output that is not waited for", right and len(written) == 4096, ran)


def state_of(process):
    with open(f"/proc/{process.pid}/stat") as file:
        return file.read().rpartition(")")[2].split()[0]


def comes_to(process, state):
    """Waits until the process is in this state: S where it sleeps, T where it is stopped."""
    end = time.monotonic() + SECONDS
    while state_of(process) != state and time.monotonic() < end:
        time.sleep(0.001)


def stops_and_goes_on(process):
    comes_to(process, "S")
    process.send_signal(signal.SIGSTOP)
    comes_to(process, "T")
    time.sleep(0.01)
    process.send_signal(signal.SIGCONT)


def stopped():
    """Stopped while it waits for its input or for room in its output, and let go on: the same output."""
    process = start(["run"])
    for place in range(0, len(PROGRAMS), 17):
        stops_and_goes_on(process)
        process.stdin.write(PROGRAMS[place:place + 17])
        process.stdin.flush()
    stops_and_goes_on(process)
    process.stdin.close()
    is_so("stopped while it reads", outcome(process, process.stdout.read()) == (0, TRANSCRIPT, b""))
    text = long_programs()
    whole = long_transcript()
    process = start(["run"], text, pipe_size=4096)
    written = bytearray()
    for _ in range(10):
        stops_and_goes_on(process)
        written += os.read(process.stdout.fileno(), 4096)
    is_so("stopped while it writes", outcome(process, bytes(written) + process.stdout.read()) == (0, whole, b""))
    for _ in range(5):
        process = start(["run", "--workers", "4"], text, pipe_size=4096)
        for _ in range(5):
            process.send_signal(signal.SIGSTOP)
            comes_to(process, "T")
            process.send_signal(signal.SIGCONT)
        status, written, errors = outcome(process, process.stdout.read())
        judged = subprocess.run([MUXSIM, "check"], input=written, capture_output=True, timeout=SECONDS)
        right = (status, errors) == (0, b"") and judged.stdout == b"legal 12000\n"
        is_so("stopped while four workers run", right, (status, errors, judged.stdout))
