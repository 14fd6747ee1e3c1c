"""Runs whose devices move one byte a call and fail once, at each read and at each write, and runs whose devices answer more
than they were asked for, by preloaded libraries."""
import errno
import os
import subprocess

from ends import LIVE, MUXSIM, READ, ROOT, SECONDS, WRITE, contents, is_so

HERE = os.path.dirname(os.path.realpath(__file__))

# The programs and the transcript of a run on one worker, in each version.
TEXTS = [("examples/opens_and_closes.mux", "examples/opens_and_closes.transcript", b"legal 4\n"),
         ("tests/rows/hangup_end_of_file/stdin", "tests/rows/hangup_end_of_file/stdout", b"legal 9\n")]


def preloaded(folder, name):
    """The library of this name, built."""
    doc = subprocess.run(["rt", "doc"], capture_output=True, text=True, check=True).stdout.strip()
    clang = os.path.join(os.path.dirname(doc), "toolchain/bin/clang")
    library = os.path.join(folder, f"{name}.so")
    words = ["-shared", "-fPIC", "-O1", "-nostdlib", "-fuse-ld=lld", "-o", library, f"{HERE}/{name}.c"]
    subprocess.run([clang, *words], check=True)
    return library


def ended(library, word, given, **answers):
    """The status, output and errors of a job whose calls are answered so."""
    with open(f"{ROOT}/{given}", "rb") as stdin:
        env = {**os.environ, "LD_PRELOAD": library, **{name: str(value) for name, value in answers.items()}}
        ran = subprocess.run([MUXSIM, word], stdin=stdin, capture_output=True, env=env, timeout=SECONDS)
    return ran.returncode, ran.stdout, ran.stderr


def each_call(library, word, given, wanted):
    """Nothing is written where a read fails, and where a write does, only what was taken before it. No call is made beyond
    the last one, so that the whole output is written where that would fail."""
    size = len(contents(given))
    for nth in range(1, size + 2):
        end = ended(library, word, given, FAIL_READ=nth, FAIL_AS=errno.EINTR)
        is_so(f"{word} of {given}, read {nth}", end == (5, b"", READ.encode()), end)
    for error in [errno.EINTR, 0]:
        for nth in range(1, len(wanted) + 1):
            end = ended(library, word, given, FAIL_WRITE=nth, FAIL_AS=error)
            right = end == (5, wanted[:nth - 1], WRITE.encode())
            is_so(f"{word} of {given}, write {nth} as {error}", right, end)
    end = ended(library, word, given, FAIL_READ=size + 2, FAIL_WRITE=len(wanted) + 1, FAIL_AS=errno.EINTR)
    is_so(f"{word} of {given}, byte by byte", end == (0, wanted, b""), end)


def each_call_of_live(library, lines):
    """A session answers each line before it reads on: where a read fails, the lines before it were answered, and where a
    write does, what was taken before it stands there. Behind the line `end` nothing is read, so that no read fails there."""
    text, wanted = contents(f"{lines}/stdin"), contents(f"{lines}/stdout")
    end_line = text.index(b"\nend\n") + len(b"\nend\n")
    table = len([line for line in text.split(b"\n") if line.startswith((b"programs", b"driver"))])
    for nth in range(1, end_line + 1):
        # The opening has as many lines as the table, and the answer to each command is one line.
        whole = text[:nth - 1].count(b"\n")
        answered = b"".join(wanted.splitlines(keepends=True)[:whole if whole > table else 0])
        end = ended(library, "live", f"{lines}/stdin", FAIL_READ=nth, FAIL_AS=errno.EINTR)
        is_so(f"live of {lines}, read {nth}", end == (5, answered, READ.encode()), end)
    for error in [errno.EINTR, 0]:
        for nth in range(1, len(wanted) + 1):
            end = ended(library, "live", f"{lines}/stdin", FAIL_WRITE=nth, FAIL_AS=error)
            is_so(f"live of {lines}, write {nth} as {error}", end == (5, wanted[:nth - 1], WRITE.encode()), end)
    end = ended(library, "live", f"{lines}/stdin", FAIL_READ=end_line + 1, FAIL_WRITE=len(wanted) + 1, FAIL_AS=errno.EINTR)
    is_so(f"live of {lines}, byte by byte", end == (0, wanted, b""), end)


def more_than_asked(library, word, given):
    """What a read answers beyond its room is not taken, but its room is: there, some bytes stand behind the end of the
    text, and so nothing is written."""
    line = "muxsim: line %d: trailing\n" % (contents(given).count(b"\n") + 1)
    for more in [1, 4096, 2 ** 32, 2 ** 62]:
        end = ended(library, word, given, MORE=more)
        is_so(f"{word} of {given}, {more} bytes more than asked", end == (3, b"", line.encode()), end)


def written_more(library, word):
    """A write that answers more than it was given has taken all of it, and is the last one."""
    shown = subprocess.run([MUXSIM, word], capture_output=True, timeout=SECONDS).stdout
    for more in [1, 4096, 2 ** 32, 2 ** 62]:
        end = ended(library, word, "examples/opens_and_closes.mux", MORE=more)
        is_so(f"{word}, {more} bytes more than it wrote", end == (0, shown, b""), end)


def each_job(folder):
    one_byte, more = preloaded(folder, "one_byte"), preloaded(folder, "more_than_asked")
    for programs, transcript, verdict in TEXTS:
        jobs = [("run", programs, contents(transcript)), ("check", transcript, verdict),
                ("replay", transcript, contents(transcript))]
        for word, given, wanted in jobs:
            each_call(one_byte, word, given, wanted)
            more_than_asked(more, word, given)
    for lines in LIVE:
        each_call_of_live(one_byte, lines)
    written_more(more, "--help")
