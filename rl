#!/usr/bin/env python3
"""Runs a program of this repository, and first proves and builds what of it is not built or has changed.

    ./rl                                   lists the programs
    ./rl PROGRAM [ARGUMENT ..]             from any folder, which stays the program's own
    ./rl --quick PROGRAM [ARGUMENT ..]     builds it without a proof, in seconds, and says so
    ./rl --passed                          notes that `rt ci` has just passed here, so that what it built is run as it is; the gate says so

Exit status: 0 done, 1 a refusal or a failure, 2 usage, 130 interrupted. Programs have none of their own: it is read off their lines
(docs/PROGRAMS.md, "Exit status").
"""
import contextlib
import fcntl
import hashlib
import os
import pty
import re
import select
import shutil
import signal
import subprocess
import sys
import tempfile
import time
import tty

ROOT = os.path.dirname(os.path.realpath(__file__))
CRATES = os.path.join(ROOT, "crates")
TARGET = os.path.join(ROOT, "target")
OWN = os.path.join(TARGET, "rl")
START = os.path.join(ROOT, "checks", "start")
DONE, FAILED, USAGE = 0, 1, 2
# how long the line of progress stays as it is, on a terminal and elsewhere, in seconds
PACE, SLOW_PACE = 0.5, 30
# how long what was interrupted may take to end
PATIENCE = 10


class Failure(Exception):
    """Nothing is run: why."""


class Interrupted(Exception):
    """A signal that ends programs came: its number."""


def say(text):
    print(f"rl: {text}", file=sys.stderr, flush=True)


# --- the programs ---


def crates():
    """Of each crate what it stands on, and what crates.txt says of it."""
    found = {}
    with open(os.path.join(ROOT, "crates.txt"), encoding="utf-8") as lines:
        for line in lines:
            row, _, comment = line.partition("#")
            name, colon, under = row.partition(":")
            if colon:
                found[name.split()[0]] = (under.split(), comment.strip())
    return found


def is_program(name):
    return os.path.isfile(os.path.join(CRATES, name, "src", "main.rt"))


def programs():
    """A line for each: its name, and what crates.txt says of it but for what the gate runs it on."""
    known = {name: re.split(r", run\b", says)[0] for name, (_, says) in crates().items() if is_program(name)}
    width = max(map(len, known))
    return [f"{name:{width}}  {says}" for name, says in known.items()]


def reached(name):
    """The crates of this repository that a program is made of, itself among them."""
    under, found, todo = crates(), set(), [name]
    while todo:
        one = todo.pop()
        if one in under and one not in found:
            found.add(one)
            todo += under[one][0]
    return sorted(found)


# --- whether it is built ---


def files_of(folder):
    """The files in a folder and below it; the folder's own name where it is a file."""
    if os.path.isfile(folder):
        return [folder]
    return sorted(os.path.join(place, name) for place, _, names in os.walk(folder) for name in names)


def sum_of(files, begun=""):
    """One sum of files, those that are there, by name and content."""
    all_of_them = hashlib.sha256(begun.encode())
    for file in files:
        with contextlib.suppress(FileNotFoundError), open(file, "rb") as data:
            all_of_them.update(f"{file} {hashlib.sha256(data.read()).hexdigest()}\n".encode())
    return all_of_them.hexdigest()


def made_from(name, parts):
    """A sum of what a program is made from: the toolchain, the crates, and those parts of each."""
    under, names = crates(), reached(name)
    begun = toolchain_says("version") + "".join(f"{crate}: {' '.join(under[crate][0])}\n" for crate in names)
    return sum_of([file for crate in names for part in parts for file in files_of(os.path.join(CRATES, crate, part))], begun)


def proved_from(name):
    return made_from(name, ["src", "specs", "proofs", "stdin", "stdout", "args", "data"])


def program_of(name):
    return os.path.join(CRATES, name, "out", name)


def proved_sum(name):
    """What a proof leaves: the program, and rt's stamp beside it, which rt removes before it proves the program anew."""
    return sum_of([program_of(name) + ".stamp", program_of(name)])


def quick_from(name):
    return made_from(name, ["src"])


def quick_sum(name):
    return sum_of([os.path.join(TARGET, "quick", name)])


def is_marked(mark, source, product):
    """Whether the mark of the last build is this. What was changed while it was built shows in the next sum of what it is made from."""
    with contextlib.suppress(FileNotFoundError), open(os.path.join(OWN, mark), encoding="utf-8") as file:
        return file.read() == f"{source} {product}\n"
    return False


def put_mark(mark, source, product):
    with open(os.path.join(OWN, mark), "w", encoding="utf-8") as file:
        file.write(f"{source} {product}\n")


# --- building ---


def toolchain_says(*words):
    try:
        return subprocess.run(["rt", *words], cwd=ROOT, capture_output=True, text=True, check=True).stdout
    except (FileNotFoundError, subprocess.CalledProcessError) as wrong:
        raise Failure(f"rt, of a toolchain that TOOLCHAIN names, is not installed or does not answer: {wrong}") from wrong


class Progress:
    """One line: rewritten in place on a terminal, elsewhere written now and then."""

    def __init__(self, tell):
        self.tell, self.began = tell, time.time()
        self.on_terminal = os.isatty(2)
        self.pace = PACE if self.on_terminal else SLOW_PACE
        self.due = self.began + self.pace

    def seconds(self):
        return int(time.time() - self.began)

    def show(self):
        if time.time() < self.due:
            return
        self.due = time.time() + self.pace
        text = f"rl: {self.tell(self.began)}, {self.seconds()} s"
        if self.on_terminal:
            text = "\r" + text[: shutil.get_terminal_size().columns - 1] + "\x1b[K"
        print(text, end="" if self.on_terminal else "\n", file=sys.stderr, flush=True)

    def clear(self):
        if self.on_terminal:
            print("\r\x1b[K", end="", file=sys.stderr, flush=True)


def crates_told(name, log):
    """How far rt has come, by what it says: a crate is begun with a line of its own, once those below it are done."""
    names = reached(name)

    def tell(_):
        with open(log, encoding="utf-8", errors="replace") as file:
            text = file.read()
        begun = re.findall(r"^rt: chose --jobs \d+ for (\w+)$", text, re.M)
        if re.search(r"^linked |^logic=proved .* target=", text, re.M):
            return f"{name}: building, {len(names)} of {len(names)} crates"
        done = {crate for one in begun for crate in reached(one)} - set(begun[-1:])
        return f"{name}: proving {begun[-1] if begun else '..'}, {len(done)} of {len(names)} crates"

    return tell


@contextlib.contextmanager
def building():
    """One build at a time in a folder; rt keeps the hold, should it outlive this."""
    os.makedirs(OWN, exist_ok=True)
    with open(os.path.join(OWN, "lock"), "w", encoding="utf-8") as lock:
        try:
            fcntl.flock(lock, fcntl.LOCK_EX | fcntl.LOCK_NB)
        except BlockingIOError:
            say("another ./rl builds here, and is waited for")
            fcntl.flock(lock, fcntl.LOCK_EX)
        yield lock.fileno()


def end_group(process):
    """Ends a process and all that it started."""
    for number in (signal.SIGTERM, signal.SIGKILL):
        with contextlib.suppress(ProcessLookupError):
            os.killpg(process.pid, number)
        with contextlib.suppress(subprocess.TimeoutExpired):
            process.wait(PATIENCE)


def run_toolchain(words, name, log, hold, progress, **more):
    """Runs rt in a crate's folder with what it says in a file, in a group of its own that ends with this; whether it was content."""
    with open(log, "wb") as out:
        process = subprocess.Popen(
            words, cwd=os.path.join(CRATES, name), stdin=subprocess.DEVNULL, stdout=out, stderr=out, start_new_session=True, pass_fds=(hold,), **more
        )
        try:
            while process.poll() is None:
                progress.show()
                with contextlib.suppress(subprocess.TimeoutExpired):
                    process.wait(0.1)
        finally:
            progress.clear()
            if process.poll() is None:
                end_group(process)
    return process.returncode == 0


# rt's line before it runs what it has proved and built
BUILT = r"^rt: running out/"


def what_failed(name, log):
    """The first crate that rt did not prove, and where it is told; nothing where all were proved and the program built."""
    shown = os.path.relpath(log, ROOT)
    with open(log, encoding="utf-8", errors="replace") as file:
        text = file.read()
    if re.search(BUILT, text, re.M):
        return ""
    found = re.search(r"^rt: the library (\w+) did not build", text, re.M)
    if found or re.search(r"^logic=not-proved", text, re.M):
        return f"{found[1] if found else name} is not proved: {shown} has why"
    return f"{name} is not built: {shown} has what rt said"


def run_stored(name):
    """What a program writes on what is stored beside its source, in a folder of its own with its data."""
    place = os.path.join(CRATES, name)
    given, words = os.path.join(place, "stdin"), []
    with contextlib.suppress(FileNotFoundError), open(os.path.join(place, "args"), encoding="utf-8") as args:
        words = args.read().splitlines()
    with tempfile.TemporaryDirectory() as folder, open(given if os.path.exists(given) else os.devnull, "rb") as stdin:
        if os.path.isdir(os.path.join(place, "data")):
            shutil.copytree(os.path.join(place, "data"), folder, dirs_exist_ok=True)
        return subprocess.run([START, name, *words], cwd=folder, stdin=stdin, stdout=subprocess.PIPE, stderr=subprocess.DEVNULL).stdout


def writes_as_stored(name):
    """Whether it is what the file stdout has; a program without one writes nothing."""
    stored = b""
    with contextlib.suppress(FileNotFoundError), open(os.path.join(CRATES, name, "stdout"), "rb") as file:
        stored = file.read()
    return run_stored(name) == stored


def is_proved(name):
    return is_marked(name, proved_from(name), proved_sum(name))


def prove(name):
    """Proves and builds a program where it is not built, or has changed."""
    if is_proved(name):
        return
    with building() as hold:
        if is_proved(name):
            return
        log, source = os.path.join(OWN, name + ".log"), proved_from(name)
        progress = Progress(crates_told(name, log))
        # the run that ends it has no input and no arguments: its status is the program's
        run_toolchain(["rt", "run"], name, log, hold, progress)
        wrong = what_failed(name, log)
        if not wrong and not writes_as_stored(name):
            wrong = f"{name} is proved, and does not write what its file stdout has: checks/runs {name} says where"
        if wrong:
            raise Failure(wrong)
        put_mark(name, source, proved_sum(name))
        say(f"{name} is proved and built, {len(reached(name))} crates, {progress.seconds()} s")


def note_passed():
    """Takes what `rt ci` built from the files as they stand for proved. It proves every crate and compares every program's output; that it
    passed is for the caller to know."""
    with building():
        for name in filter(is_program, crates()):
            if os.path.exists(program_of(name)):
                put_mark(name, proved_from(name), proved_sum(name))


# --- building without a proof ---


def link_all(place, view, *but):
    """A folder with a link for each thing in another but some."""
    os.makedirs(view)
    for name in os.listdir(place):
        if name not in but:
            os.symlink(os.path.realpath(os.path.join(place, name)), os.path.join(view, name))


def toolchain_view(folder, linked):
    """The toolchain's folder once more, with a linker that leaves a copy of what it links: `rt try` itself keeps no program. Gives its rt, a
    copy, as rt takes the toolchain that its own file lies in."""
    tools = os.path.dirname(os.path.realpath(shutil.which("rt") or "rt"))
    kit, view = os.path.dirname(tools), os.path.join(folder, "kit")
    link_all(kit, view, "bin", "toolchain")
    link_all(tools, os.path.join(view, "bin"), "rt", "rtlib.py")
    link_all(os.path.join(kit, "toolchain"), os.path.join(view, "toolchain"), "bin")
    link_all(os.path.join(kit, "toolchain", "bin"), os.path.join(view, "toolchain", "bin"), "ld.lld")
    for name in ("rt", "rtlib.py"):
        shutil.copy(os.path.join(tools, name), os.path.join(view, "bin"))
    linker = os.path.join("toolchain", "bin", "ld.lld")
    with open(os.path.join(view, linker), "w", encoding="utf-8") as script:
        script.write(f'#!/bin/sh\n"{os.path.join(kit, linker)}" "$@" && cp program "{linked}"\n')
    os.chmod(os.path.join(view, linker), 0o755)
    return os.path.join(view, "bin", "rt")


def try_program(name, hold, folder):
    """Leaves a program that is not proved. Of the ways in which `rt try` compiles it the last counts: assumptions are checked as it runs."""
    log, linked = os.path.join(OWN, name + ".quick.log"), os.path.join(folder, "program")
    words, more = [toolchain_view(folder, linked), "try"], dict(os.environ, TMPDIR=folder)
    progress = Progress(lambda began: f"{name}: building without a proof")
    # what it ends with is the program's status, of a run without input and arguments
    run_toolchain(words, name, log, hold, progress, env=more)
    if not os.path.exists(linked):
        raise Failure(f"{name} is not built: {os.path.relpath(log, ROOT)} has what rt said")
    os.makedirs(os.path.join(TARGET, "quick"), exist_ok=True)
    shutil.move(linked, os.path.join(TARGET, "quick", name))


def build_quick(name):
    """Builds a program without a proof where it is not built so, or has changed."""
    source = quick_from(name)
    if not is_marked(name + ".quick", source, quick_sum(name)):
        with building() as hold, tempfile.TemporaryDirectory() as folder:
            try_program(name, hold, folder)
        put_mark(name + ".quick", source, quick_sum(name))
    say(f"{name} is NOT PROVED: built by --quick, for a trial alone")


# --- running ---

# what is wrong with the arguments
WRONG_USE = re.compile(rb"\? (too (few|many) arguments|unknown argument): |\? [A-Z]+ is (no number|out of range|no name|too long a name)")
# a read or a write failed
WRONG_STREAM = re.compile(rb"standard (input|output): ")
# programs that end in a report on standard output, and the last line of one that is a refusal; a report may have complaints beside it
REPORTS = {
    "listing": re.compile(rb"- - - 11 "),
    "waits": re.compile(rb"\d+ [a-z]"),
    "air": re.compile(rb"\d+ [a-z]"),
    "playout": re.compile(rb"\d+ [a-z]"),
    "chart": re.compile(rb"\d+ [a-z]"),
    "headend --check": re.compile(rb"\? "),
    "headend --sums": re.compile(rb"\? "),
}
# programs that answer line by line, and a last answer that is a refusal, or to a line that could not be read
SESSIONS = ("console", "headend")
REFUSED = re.compile(rb"[1-9]\d* [a-z]|\? ")


def ends_like(stream):
    """Two ends of a pipe, or of a terminal where a stream is one."""
    if os.isatty(stream):
        with contextlib.suppress(OSError):
            ends = pty.openpty()
            tty.setraw(ends[1])
            return ends
    return os.pipe()


class Channel:
    """One of a program's streams, handed through, with its lines looked at. It stays a terminal where ours is one."""

    def __init__(self, stream):
        self.stream, self.last, self.rest = stream, b"", b""
        self.wrong_use = self.wrong_stream = False
        self.reader, self.writer = ends_like(stream)

    def fileno(self):
        return self.reader

    def pass_on(self):
        """Hands on what has come, and gives it back: nothing at the end."""
        try:
            data = os.read(self.reader, 65536)
        except OSError:
            data = b""  # of a terminal, the end
        self.look_at(data)
        left = data
        while left:
            left = left[os.write(self.stream, left) :]
        return data

    def look_at(self, data):
        *lines, self.rest = (self.rest + (data or b"\n")).split(b"\n")
        for line in filter(None, lines):
            self.last = line.split(b"\r")[-1].removeprefix(b"\x1b[K")
            self.wrong_use |= bool(WRONG_USE.match(self.last))
            self.wrong_stream |= bool(WRONG_STREAM.match(self.last))


def hand_through(channels):
    """All that comes, of two channels that have something the first before the second."""
    left = list(channels)
    while left:
        ready = select.select(left, [], [])[0]
        left = [channel for channel in left if channel not in ready or channel.pass_on()]


def status_of(task, ended, err, out):
    """What a program's lines say: a report is judged by its last line, a session by its last answer too, any other run by what was said on
    standard error at last."""
    if err.wrong_use:
        return USAGE
    if ended != 0 or err.wrong_stream:
        return FAILED
    if task in REPORTS and out.last:
        return FAILED if REPORTS[task].match(out.last) else DONE
    if task in SESSIONS and out and REFUSED.match(out.last):
        return FAILED
    return FAILED if err.last.startswith(b"? ") else DONE


def end_program(process, number):
    """Hands on a signal; from a terminal the program has had it already."""
    process.send_signal(number)
    try:
        process.wait(PATIENCE)
    except subprocess.TimeoutExpired:
        process.kill()
        process.wait()


def run(name, program, words):
    """Runs a built program. Its standard output is looked at where it says how it ended, and else left alone, but for a terminal's order."""
    task = next((task for task in (f"{name} {words[0]}" if words else "", name) if task in REPORTS), name)
    err = Channel(2)
    out = Channel(1) if task in REPORTS or task in SESSIONS or os.isatty(1) else None
    channels = [channel for channel in (err, out) if channel]
    process = subprocess.Popen([START, program, *words], stdout=out and out.writer, stderr=err.writer)
    for channel in channels:
        os.close(channel.writer)
    try:
        hand_through(channels)
        return status_of(task, process.wait(), err, out)
    except BrokenPipeError:
        end_program(process, signal.SIGPIPE)
        return FAILED
    except OSError as wrong:
        end_program(process, signal.SIGPIPE)
        say(f"standard output: {wrong.strerror}")
        return FAILED
    except Interrupted as interrupted:
        end_program(process, interrupted.args[0])
        raise


# --- the whole of it ---

ENDING = (signal.SIGINT, signal.SIGTERM, signal.SIGHUP)


def interrupt(number, _):
    for other in ENDING:
        signal.signal(other, signal.SIG_IGN)
    raise Interrupted(number)


def wrong_program(name):
    """What is wrong with the name of a program, if anything is."""
    if name in crates() and is_program(name):
        return ""
    return f"there is no program {name}; there are " + ", ".join(line.split()[0] for line in programs())


def rl(words):
    if words and words[0] in ("-h", "--help"):
        print(__doc__)
        return DONE
    if not words:
        print("\n".join(programs()))
        return DONE
    if words == ["--passed"]:
        note_passed()
        return DONE
    quick = words[0] == "--quick"
    if not words[quick:]:
        say("usage: ./rl [--quick] PROGRAM [ARGUMENT ..], and ./rl alone lists the programs")
        return USAGE
    name, *arguments = words[quick:]
    wrong = wrong_program(name)
    if wrong:
        say(wrong)
        return USAGE
    if quick:
        build_quick(name)
    else:
        prove(name)
    return run(name, os.path.join("quick", name) if quick else name, arguments)


def main():
    for number in ENDING:
        if signal.getsignal(number) != signal.SIG_IGN:
            signal.signal(number, interrupt)
    try:
        return rl(sys.argv[1:])
    except Failure as failure:
        say(failure)
        return FAILED
    except Interrupted as interrupted:
        say("interrupted")
        return 128 + interrupted.args[0]


if __name__ == "__main__":
    sys.exit(main())
