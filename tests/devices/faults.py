"""Reads and writes that the system refuses, one by one, by the fault injection of strace."""
import os
import shutil
import subprocess
import tempfile

from ends import EXAMPLE, LIVE, MUXSIM, OF_VERSION_2, READ, ROOT, WRITE, is_so

ON_READS = ["EINTR", "EIO", "EAGAIN", "EBADF", "ECONNRESET"]
ON_WRITES = ["EINTR", "EIO", "EAGAIN", "ENOSPC", "EPIPE", "EDQUOT", "EFBIG"]
LINES = {"read": READ, "write": WRITE}


def traced(options, words, given):
    """The program under strace: its end, and the lines of strace."""
    with tempfile.NamedTemporaryFile("r") as log, open(f"{ROOT}/{given}", "rb") as stdin:
        ran = subprocess.run(["strace", "-f", "-o", log.name, *options, MUXSIM, *words], stdin=stdin,
                             capture_output=True, text=True, timeout=60)
        return ran, log.read().splitlines()


def is_there():
    if not shutil.which("strace"):
        return False
    return traced(["-e", "trace=read"], ["--version"], f"{EXAMPLE}.mux")[0].returncode == 0


def calls_before(call, words, given):
    """How many of these calls the loader makes before the program's first one on its device, and how many it makes."""
    _, lines = traced(["-e", f"trace={call}"], words, given)
    device = 0 if call == "read" else 1
    calls = [line for line in lines if f" {call}(" in line]
    ours = [number for number, line in enumerate(calls) if f" {call}({device}," in line]
    return ours[0], len(ours)


def refused(call, errors, words, given, whole=""):
    """Each of these calls of the program fails, by each error: status 5, its line, and nothing was written, but for
    what earlier writes of the whole output took."""
    before, count = calls_before(call, words, given)
    for nth in range(before + 1, before + count + 1):
        for error in errors:
            ran, lines = traced(["-e", f"trace={call}", "-e", f"inject={call}:{error}:when={nth}"], words, given)
            right = (ran.returncode, ran.stderr) == (5, LINES[call]) and whole.startswith(ran.stdout)
            right = right and (ran.stdout == "") == (nth == before + 1 or not whole)
            injected = any("INJECTED" in line for line in lines)
            is_so(f"{words}, {call} {nth} as {error}", right and injected, ran)


def by_strace():
    if not is_there():
        print("no strace that can trace: no read and no write was made to fail by it")
        return
    jobs = [(["run", "--workers", "3"], "examples/shared_multiplexer.mux")]
    for text in [EXAMPLE, OF_VERSION_2]:
        jobs += [(["run"], f"{text}.mux"), (["check"], f"{text}.transcript"), (["replay"], f"{text}.transcript"),
                 (["draw"], f"{text}.transcript"), (["check", "--explain"], f"{text}.transcript"),
                 (["run", "--workers", "2"], f"{text}.mux"), (["run", "--fronts"], f"{text}.mux")]
    for words, given in jobs:
        refused("read", [f"error={error}" for error in ON_READS], words, given)
        refused("write", [f"error={error}" for error in ON_WRITES] + ["retval=0"], words, given)
    for lines in LIVE:
        refused("read", [f"error={error}" for error in ON_READS], ["live"], f"{lines}/stdin")
    for words in [["--help"], ["commands"], ["--version"]]:
        shown = subprocess.run([MUXSIM, *words], capture_output=True, text=True, timeout=60).stdout
        refused("write", [f"error={error}" for error in ON_WRITES[1:]] + ["retval=0"], words, f"{EXAMPLE}.mux", shown)
        ran, _ = traced(["-e", "trace=write", "-e", "inject=write:error=EINTR:when=1"], words, f"{EXAMPLE}.mux")
        is_so(f"{words}, interrupted, is tried again", (ran.returncode, ran.stdout, ran.stderr) == (0, shown, ""), ran)
