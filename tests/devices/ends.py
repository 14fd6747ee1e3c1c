"""Runs of the program, whose ends are counted."""
import fcntl
import os
import subprocess
import tempfile

ROOT = os.path.realpath(f"{os.path.dirname(os.path.realpath(__file__))}/../..")
MUXSIM = f"{ROOT}/crates/muxsim/out/muxsim"
EXAMPLE, OF_VERSION_2 = "examples/opens_and_closes", "examples/lost_carrier"
# Live sessions, one in each version.
LIVE = ["tests/rows/live_ends_by_end", "tests/rows/live_hangup_end_of_file"]
READ, WRITE = "muxsim: read failed\n", "muxsim: write failed\n"
SECONDS = 30

tally = {True: 0, False: 0}


def contents(name):
    with open(f"{ROOT}/{name}", "rb") as file:
        return file.read()


PROGRAMS, TRANSCRIPT = contents(f"{EXAMPLE}.mux"), contents(f"{EXAMPLE}.transcript")
PROGRAMS_2, TRANSCRIPT_2 = contents(f"{OF_VERSION_2}.mux"), contents(f"{OF_VERSION_2}.transcript")


def is_so(name, right, what=""):
    tally[right] += 1
    if not right:
        print(f"{name}: NOT so; {str(what)[:300]}")


def counts():
    """How many passed, and how many failed."""
    return tally[True], tally[False]


def ends(name, words, devices, status, output, errors):
    """The program, with its devices as bash has them by these words, where $FILE is an empty file."""
    with tempfile.NamedTemporaryFile() as file, tempfile.TemporaryFile() as written, tempfile.TemporaryFile() as told:
        line = f'exec "$0" "$@" {devices}'
        ran = subprocess.run(["bash", "-c", line, MUXSIM, *words], cwd=ROOT, stdin=subprocess.DEVNULL, stdout=written,
                             stderr=told, env={**os.environ, "FILE": file.name}, timeout=SECONDS)
        written.seek(0)
        told.seek(0)
        ended = (ran.returncode, written.read(), told.read().decode())
    is_so(name, ended == (status, output, errors), ended)


def long_programs(version=1):
    """Four processes with 12,000 commands, of which none is refused; the transcript has some 300,000 bytes."""
    lines = [f"programs {version}", "driver ip mux 64 8 3 16"]
    for process in range(4):
        lines += [f"process {process}"] + ["clone ip", "dup 0", "exit"] * 1000
    return "".join(f"{line}\n" for line in lines + ["end"]).encode()


def long_transcript(version=1):
    """What a run of them on one worker writes into a pipe that is read at once."""
    return subprocess.run([MUXSIM, "run"], input=long_programs(version), capture_output=True, timeout=SECONDS).stdout


def start(words, given=None, pipe_size=None):
    """The program, with pipes; the whole input in a file where it is given."""
    if given is None:
        stdin = subprocess.PIPE
    else:
        stdin = tempfile.TemporaryFile()
        stdin.write(given)
        stdin.seek(0)
    ours, theirs = os.pipe()
    if pipe_size:
        fcntl.fcntl(theirs, fcntl.F_SETPIPE_SZ, pipe_size)
    process = subprocess.Popen([MUXSIM, *words], stdin=stdin, stdout=theirs, stderr=subprocess.PIPE)
    os.close(theirs)
    if given is not None:
        stdin.close()
    process.stdout = open(ours, "rb", buffering=0)
    return process


def outcome(process, written):
    """The status, output and errors of a process whose output is read elsewhere."""
    try:
        status = process.wait(timeout=SECONDS)
    except subprocess.TimeoutExpired:
        process.kill()
        process.wait()
        return "no end", written, b""
    return status, written, process.stderr.read()
