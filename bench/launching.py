"""How a program of this repository is launched and proved. The proved program is run where it stands and no source is newer; else the kit builds the program without proofs for this one run."""
import functools
import os
import re
import select
import shutil
import signal
import subprocess
import sys
import tempfile
import time

TOP = os.path.dirname(os.path.dirname(os.path.realpath(__file__)))
LOG = f"{TOP}/out/build.log"
TABLE = f"{TOP}/docs/gate-table.md"

# The launcher's own statuses: it gave no whole report; the program could not be run; the kit is not there.
NO_REPORT, NOT_RUN, NO_KIT = 125, 126, 127
# The program's own status where its output can't be written.
WRITE_FAULT = 5

# What a build without proofs may take: the kit hands on so many bytes of input and of output, and ends the run after so many seconds.
INPUT, OUTPUT, SECONDS = 64 << 20, 1 << 20, 600
# How long standard input may be silent before that is told, and before the launcher gives up; seconds.
SILENT, TOO_SILENT = 10, 60
# How long such a build takes on four idle processors; seconds.
BUILD = 120

# What the kit writes behind the program's own standard error where the program ended, and why it may have none.
ENDED = re.compile(rb"^(?:interpreter: .*\n)?checked: ended status=\d+\n(?:races: .*\n)?run=ended status=(\d+) .*proved=no\n\Z", re.M)
REASONS = {
    b"bytes to standard output or to standard error, the limit on each": f"it writes more than {OUTPUT} bytes, which is more than a build without proofs hands on",
    b"did not end within the time limit": f"it had not ended after {SECONDS} seconds, which is all that a build without proofs may take",
}


class Refused(Exception):
    """Why there is no report, in a sentence, and the launcher's status."""

    def __init__(self, status, why):
        super().__init__(why)
        self.status = status


def say(name, text):
    print(f"{name}: {text}", file=sys.stderr, flush=True)


def program_of(crate):
    return f"{TOP}/crates/{crate}/out/{crate}"


def is_proved(crate):
    """Whether the program stands and no source is newer. The kit builds no other program into this place than a proved one."""
    if not os.access(program_of(crate), os.X_OK):
        return False
    built = os.stat(program_of(crate)).st_mtime
    for at, folders, names in os.walk(f"{TOP}/crates"):
        folders[:] = [it for it in folders if it != "out"]
        if any(it.endswith((".rt", ".antt")) and os.stat(f"{at}/{it}").st_mtime > built for it in names):
            return False
    return os.stat(f"{TOP}/crates.txt").st_mtime <= built


@functools.cache
def crates_below(crate):
    """The crates that the program stands on, and its own, each with those that it names."""
    named = {}
    for line in open(f"{TOP}/crates.txt", encoding="utf-8"):
        name, colon, rest = line.split("#")[0].partition(":")
        if colon:
            named[name.strip()] = rest.split()
    wanted, left = set(), [crate]
    while left:
        name = left.pop()
        if name in named and name not in wanted:
            wanted.add(name)
            left += named[name]
    return {name: [it for it in rest if it in wanted] for name, rest in named.items() if name in wanted}


def minutes_left(crate, proved):
    """How long the proofs of the others take by the table of the gate: on all processors, and no less than the longest way through crates that wait for each other."""
    seconds = {}
    for row in open(TABLE, encoding="utf-8"):
        cells = [it.strip() for it in row.split("|")[1:-1]]
        if len(cells) == 5 and cells[1].isdigit():
            seconds[cells[0]] = int(cells[1]) + int(cells[2])
    below = crates_below(crate)

    @functools.cache
    def way(name):
        own = 0 if name in proved else seconds.get(name, 60)
        return own + max(map(way, below[name]), default=0)

    work = sum(seconds.get(it, 60) for it in below if it not in proved)
    return round(max(work / (os.cpu_count() or 1), way(crate)) / 60)


# A run without proofs.


def read_silently(name, file):
    """Writes what standard input gives, to its end, into the file."""
    size, since = 0, time.monotonic()
    while True:
        if not select.select([0], [], [], SILENT)[0]:
            silent = time.monotonic() - since
            if silent >= TOO_SILENT and not sys.stdin.isatty():
                raise Refused(NO_REPORT, f"standard input was silent for {TOO_SILENT} seconds and did not end, so nothing was run")
            say(name, "waits for the end of standard input")
            continue
        more = os.read(0, 1 << 20)
        if not more:
            return
        size, since = size + len(more), time.monotonic()
        if size > INPUT:
            raise Refused(NO_REPORT, f"standard input has more than {INPUT >> 20} MiB, which a build without proofs does not take: ./prove proves the program")
        file.write(more)


def wait_for(name, run):
    """Waits for the run, and tells each ten seconds that it goes on."""
    began = time.monotonic()
    while True:
        try:
            return run.wait(timeout=10)
        except subprocess.TimeoutExpired:
            say(name, f"{time.monotonic() - began:.0f} seconds of about {BUILD} for the build")


def try_program(name, crate, words, given, report, told):
    """Runs the kit's build without proofs, once: its second run, on an interpreter, gets one step. Both files of output are the caller's."""
    # (the kit ends what it started, and leaves nothing, where it is told to stop)
    run = subprocess.Popen(["rt", "try", "--steps", "1", "--seconds", str(SECONDS), "--", *words], cwd=f"{TOP}/crates/{crate}", stdin=given, stdout=report, stderr=told)
    for it in (signal.SIGTERM, signal.SIGHUP):
        signal.signal(it, lambda number, _: (run.terminate(), run.wait(), sys.exit(128 + number)))
    try:
        wait_for(name, run)
    finally:
        run.terminate()
        run.wait()


def hand_over(report, said):
    """Writes the whole report, and what the program said; gives its status."""
    ended = ENDED.search(said)
    if not ended:
        raise Refused(NO_REPORT, next((f"there is no report: {why}; ./prove proves the program" for sign, why in REASONS.items() if sign in said), ""))
    try:
        shutil.copyfileobj(report, sys.stdout.buffer)
        sys.stdout.flush()
    except OSError as error:
        # (nothing is left to be written as Python ends)
        os.dup2(os.open(os.devnull, os.O_WRONLY), 1)
        raise Refused(WRITE_FAULT, f"standard output can't be written: {error.strerror}") from error
    sys.stderr.buffer.write(re.sub(rb"(?m)^rt: .*\n", b"", said[: ended.start()]))
    return int(ended[1])


def keep_log(said):
    try:
        os.makedirs(os.path.dirname(LOG), exist_ok=True)
        with open(LOG, "wb") as log:
            log.write(said)
        return f"what the kit said is in {os.path.relpath(LOG, TOP)}"
    except OSError as error:
        return f"what the kit said can't be kept: {error.strerror}"


def run_unproved(name, crate, words):
    say(name, f"not proved on this machine: this run is of a build without proofs, in about {BUILD // 60} minutes; ./prove proves the program, in about {minutes_left(crate, frozenset())} minutes on {os.cpu_count()} processors")
    if not shutil.which("rt"):
        raise Refused(NO_KIT, "the kit's command rt is not on the path")
    if any(it == "--dir" or it.startswith("--dir=") for it in words):
        raise Refused(NOT_RUN, "a build without proofs reaches no folder, so it takes no --dir: ./prove proves the program")
    with tempfile.TemporaryDirectory(prefix=f"{name}-") as room:
        given, report, told = (open(f"{room}/{it}", "w+b") for it in ("given", "report", "told"))
        with given, report, told:
            if words[:1] in (["run"], ["check"]):
                read_silently(name, given)
                given.seek(0)
            try_program(name, crate, words, given, report, told)
            report.seek(0)
            told.seek(0)
            said = told.read()
            try:
                return hand_over(report, said)
            except Refused as refused:
                if str(refused):
                    raise
                raise Refused(NO_REPORT, f"the build without proofs gave no report; {keep_log(said)}") from refused


def launch(name, crate, words):
    """Runs the program on these words, and gives its status, or the launcher's own."""
    if is_proved(crate):
        os.execv(program_of(crate), [program_of(crate), *words])
    try:
        return run_unproved(name, crate, words)
    except Refused as refused:
        say(name, str(refused))
        return refused.status
    except OSError as error:
        say(name, f"there is no report: {error.strerror}")
        return NO_REPORT
    except KeyboardInterrupt:
        return 128 + signal.SIGINT


# Proofs.


def prove_in(room, crate):
    """Runs the kit's gate over a copy that has the program's crates alone, and none of their must-fail edits: what it proves, the whole gate need not prove again."""
    # (what the kit takes for the top of a repository)
    os.mkdir(f"{room}/.git")
    shutil.copy2(f"{TOP}/HANDLES", room)
    below = crates_below(crate)
    with open(f"{room}/crates.txt", "w", encoding="utf-8") as file:
        file.writelines(line for line in open(f"{TOP}/crates.txt", encoding="utf-8") if line.split("#")[0].partition(":")[0].strip() in below)
    for it in below:
        shutil.copytree(f"{TOP}/crates/{it}", f"{room}/crates/{it}", ignore=shutil.ignore_patterns("out", "must-fail"))
    proved = set()
    with open(LOG, "w", encoding="utf-8") as log, subprocess.Popen(["rt", "ci"], cwd=room, stdin=subprocess.DEVNULL, stdout=subprocess.PIPE, stderr=subprocess.STDOUT, text=True, errors="replace") as run:
        for line in run.stdout:
            log.write(line)
            log.flush()
            told = re.match(r"rt: (\w+) (proved$|NOT PROVED|is kept)", line)
            if told and told[1] not in proved:
                proved.add(told[1])
                say("prove", f"crate {len(proved)} of {len(below)}: {told[1]} {told[2]}; some {minutes_left(crate, frozenset(proved))} minutes are left")
    return run.returncode


def prove(crate):
    """Proves and builds the program, where that is needed."""
    if is_proved(crate):
        say("prove", "the program is proved, and no source is newer")
        return 0
    if not shutil.which("rt"):
        say("prove", "the kit's command rt is not on the path")
        return NO_KIT
    say("prove", f"{len(crates_below(crate))} crates, some {minutes_left(crate, frozenset())} minutes on {os.cpu_count()} processors that do nothing else; what was proved before is not proved again")
    os.makedirs(os.path.dirname(LOG), exist_ok=True)
    os.makedirs(os.path.dirname(program_of(crate)), exist_ok=True)
    with tempfile.TemporaryDirectory(prefix="build-", dir=f"{TOP}/out") as room:
        if prove_in(room, crate) == 0:
            # (newer than the sources, which the kit's own may not be where it was kept)
            shutil.copyfile(f"{room}/crates/{crate}/out/{crate}", program_of(crate))
            shutil.copymode(f"{room}/crates/{crate}/out/{crate}", program_of(crate))
    if not is_proved(crate):
        say("prove", f"that failed; its log is {os.path.relpath(LOG, TOP)}")
        return NOT_RUN
    say("prove", f"proved: {os.path.relpath(program_of(crate), TOP)}")
    return 0
