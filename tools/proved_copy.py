"""Proves and builds a program of this repository in a copy of the crates that it stands on.

In the copy `rt ci` proves the crates side by side, without must-fail edits, as many as processors and memory hold. What is
proved is kept on this machine by the toolchain: a build that is ended in the middle goes on there when it is started again, and
the gate finds what a build has proved, as a build what the gate has.
"""
import ctypes
import os
import re
import shutil
import signal
import subprocess
import sys
import tempfile
import time

TOP = os.path.realpath(os.path.join(os.path.dirname(os.path.abspath(__file__)), ".."))
BENCHES = os.path.join(TOP, "benches")
BENCH_ENDING = ".bench"
SOURCES = (".rt", ".antt", BENCH_ENDING)
INTERVAL = 0.5
SHOWN_LINES = 40
ENDS_WITH_PARENT = 1


def entries(path):
    """Each crate that a list names: its line, and the libraries it stands on."""
    found = {}
    with open(path) as lines:
        for line in lines:
            name, colon, below = line.partition("#")[0].partition(":")
            if colon:
                found[name.split()[0]] = line, below.split()
    return found


def listed():
    """The crates and the benches."""
    return {**entries(os.path.join(TOP, "crates.txt")), **entries(os.path.join(BENCHES, "benches.txt"))}


def with_those_below(name):
    """The crate and those of this repository that it stands on, the lowest first."""
    crates, found = listed(), {}

    def add(crate):
        for below in crates[crate][1]:
            if below in crates and below not in found:
                add(below)
        found[crate] = True

    add(name)
    return list(found)


def folder_of(name):
    """Where a crate or a bench stands."""
    bench = os.path.join(BENCHES, name)
    return bench if os.path.isdir(bench) else os.path.join(TOP, "crates", name)


def program_of(name):
    return os.path.join(folder_of(name), "out", name)


def newest():
    """The time of the newest source of all crates and benches."""
    times = [os.path.getmtime(os.path.join(TOP, name)) for name in ("crates.txt", "HANDLES")]
    for top in (os.path.join(TOP, "crates"), BENCHES):
        for at, folders, files in os.walk(top):
            folders[:] = [name for name in folders if name != "out"]
            times += [os.path.getmtime(os.path.join(at, name)) for name in files if name.endswith(SOURCES)]
    return max(times)


def copy(name, folder):
    """Makes the folder a repository of the crate and those that it stands on, and answers their names, the lowest first."""
    crates = listed()
    names = with_those_below(name)
    os.makedirs(os.path.join(folder, ".git"))
    for crate in names:
        to = os.path.join(folder, "crates", crate)
        shutil.copytree(folder_of(crate), to, ignore=shutil.ignore_patterns("out", "must-fail"))
        for at, _, files in os.walk(to):
            for file in filter(lambda it: it.endswith(BENCH_ENDING), files):
                os.rename(os.path.join(at, file), os.path.join(at, file[:-len(BENCH_ENDING)]))
    with open(os.path.join(folder, "crates.txt"), "w") as lines:
        lines.writelines(crates[crate][0] for crate in names)
    shutil.copy(os.path.join(TOP, "HANDLES"), folder)
    return names


def end_with_parent():
    ctypes.CDLL(None).prctl(ENDS_WITH_PARENT, signal.SIGKILL)


class Progress:
    """Says on standard error which crate's proof begins, and how many there are."""

    def __init__(self, program, names, folder):
        self.program, self.names, self.folder = program, names, folder
        self.seen, self.told = set(), set()

    def say(self, text):
        print("%s: %s" % (self.program, text), file=sys.stderr, flush=True)

    def is_begun(self, name):
        """Whether the crate is being proved: `rt ci` has made its folder for the library, and no library stands there. A program
        has none."""
        out = os.path.join(self.folder, "crates", name, "out")
        if name == self.program:
            return os.path.isdir(out)
        return os.path.isdir(os.path.join(out, "rlib")) and not os.path.exists(os.path.join(out, "rlib", name + ".rlib"))

    def look(self, log):
        """Tells of each crate whose proof has begun, once that is seen twice."""
        kept = set(re.findall(r"(?m)^rt: (\w+) is kept: ", log))
        begun = {name for name in self.names if self.is_begun(name)} - kept
        for name in self.names:
            if name in begun & self.seen - self.told:
                if not self.told and kept:
                    self.say("%d of %d crates were proved before" % (len(kept), len(self.names)))
                self.told.add(name)
                self.say("proving %s, %d of %d" % (name, len(kept | self.told), len(self.names)))
        self.seen = begun


def prove(name, folder, progress):
    """Proves the copy until its program is built, and answers what `rt ci` said, and whether the program is there."""
    log = os.path.join(folder, "log")
    with open(log, "wb") as out:
        gate = subprocess.Popen(["rt", "ci"], cwd=folder, stdin=subprocess.DEVNULL, stdout=out, stderr=subprocess.STDOUT,
                                preexec_fn=end_with_parent)
    try:
        while True:
            has_ended = gate.poll() is not None
            with open(log, errors="replace") as lines:
                text = lines.read()
            progress.look(text)
            is_built = bool(re.search(r"(?m)^rt: %s (proved$|is kept: )" % name, text))
            if is_built or has_ended or " NOT PROVED" in text:
                return text, is_built
            time.sleep(INTERVAL)
    finally:
        # its tests, if it has any, are the gate's
        gate.kill()
        gate.wait()


def sweep():
    """Removes the copies of builds that were killed."""
    for name in os.listdir(tempfile.gettempdir()):
        of = re.match(r"proving-(\d+)-", name)
        if of and not os.path.exists("/proc/" + of[1]):
            shutil.rmtree(os.path.join(tempfile.gettempdir(), name), ignore_errors=True)


def build(name):
    """Proves and builds the program, and answers whether it could."""
    start = time.time()
    sweep()
    with tempfile.TemporaryDirectory(prefix="proving-%d-" % os.getpid()) as room:
        folder = os.path.join(room, "copy")
        latest = newest()
        names = copy(name, folder)
        progress = Progress(name, names, folder)
        said, is_built = prove(name, folder, progress)
        if not is_built:
            print("\n".join(said.splitlines()[-SHOWN_LINES:]), file=sys.stderr)
            progress.say("not built: what is above says why")
            return False
        # a file that changed meanwhile is newer than the program
        os.makedirs(os.path.dirname(program_of(name)), exist_ok=True)
        made = program_of(name) + ".new"
        shutil.copy(os.path.join(folder, "crates", name, "out", name), made)
        os.utime(made, (start, max(start, latest)))
        os.replace(made, program_of(name))
    progress.say("proved and built in %.1f minutes" % ((time.time() - start) / 60))
    return True


def is_built(name):
    """Whether the program is there, after it was built where it was missing or older than the sources."""
    program = program_of(name)
    return os.path.exists(program) and newest() <= os.path.getmtime(program) or build(name)
