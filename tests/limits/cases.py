"""Runs and checks through the program, and what has to come of them."""
import os
import subprocess

HERE = os.path.dirname(os.path.realpath(__file__))
MUXSIM = f"{HERE}/../../crates/muxsim/out/muxsim"

LONGEST = 16_777_216

passed = failed = 0


def text_of(lines):
    return "".join(f"{line}\n" for line in lines)


def programs_text(drivers, programs, version=1):
    """The programs of processes, each of which is its list of commands."""
    lines = [f"programs {version}", *(f"driver {driver}" for driver in drivers)]
    for number, commands in enumerate(programs):
        lines += [f"process {number}", *commands]
    return text_of(lines + ["end"])


def transcript_text(drivers, entries, shown, version=1):
    drivers = [f"driver {driver}" for driver in drivers]
    return text_of([f"transcript {version}", *drivers, *entries, "config", *shown, "end"])


def is_so(name, right, what=""):
    """Counts a case."""
    global passed, failed
    if right:
        passed += 1
    else:
        failed += 1
        print(f"{name}: NOT so{what}")


def shortened(text):
    return text if len(text) < 200 else f"{text[:100]}.. of {len(text)} characters"


def gives(name, words, given, status, output, errors=""):
    """The program, on these words and this input, ends in just this."""
    ran = subprocess.run([MUXSIM, *words], input=given, capture_output=True, text=True, timeout=60)
    right = (ran.returncode, ran.stdout, ran.stderr) == (status, output, errors)
    is_so(name, right, f": status {ran.returncode}, {shortened(ran.stderr.strip())} {shortened(ran.stdout.strip())}")


def in_both_versions(text):
    """A text of version 1, and the same of version 2; any other text is the only one."""
    kind, _, rest = text.partition(" 1\n")
    return [text, f"{kind} 2\n{rest}"] if kind in ["programs", "transcript"] else [text]


class OfOneVersion(str):
    """A text of which another version would be answered otherwise."""


def refuses(word, name, given, line, status):
    for text in [given] if isinstance(given, OfOneVersion) else in_both_versions(given):
        gives(f"{word}, {name}", [word], text, status, "", f"muxsim: {line}\n")


def refuses_run(name, given, line, status=3):
    refuses("run", name, given, line, status)


def refuses_check(name, given, line, status=3):
    refuses("check", name, given, line, status)


def judges(name, given, verdict):
    for text in in_both_versions(given):
        gives(f"check, {name}", ["check"], text, 0 if verdict.startswith("legal") else 4, f"{verdict}\n")


def row(name, drivers, programs, shown, versions=(1, 2)):
    """Each line of a program is a command with its reply. A run on one worker writes them under these lines below
    'config', a check of that finds it legal, and a replay gives it back: in each of the versions. Answers the last transcript."""
    for version in versions:
        transcript = row_of(name, drivers, programs, shown, version)
    return transcript


def row_of(name, drivers, programs, shown, version):
    commands = [[line.partition(" = ")[0] for line in program] for program in programs]
    entries = [f"{process} {line}" for process, program in enumerate(programs) for line in program]
    transcript = transcript_text(drivers, entries, shown, version)
    gives(f"run, {name}, version {version}", ["run"], programs_text(drivers, commands, version), 0, transcript)
    if len(transcript) > LONGEST:
        refuses_check(name, OfOneVersion(transcript), "input too long")
    else:
        gives(f"check, {name}, version {version}", ["check"], transcript, 0, f"legal {len(entries)}\n")
        gives(f"replay, {name}, version {version}", ["replay"], transcript, 0, transcript)
    return transcript
