"""The quicker way of tools/build: each crate is proved as `rt ci` proves it, without three things that only the gate needs.

- `rt ci` looks for contracts that no call can meet, which was seen to take up to a fifth of a crate's time. A proof is no
  other one without that search.
- `rt ci` looks at the text beside the proof: its format, names that a reader would take for others, handles that it names. What
  each proof's last line says is held to HANDLES here too, and so is what the linked program calls.
- `rt ci` has the program built a second time, by Rattle's own compiler, and compares what both print. Nobody runs that one.

The kit's own commands do the rest: this module loads `rt` and has it prove crate after crate, side by side as memory allows and
first those with the longest way to the program, by the seconds that each took before. Nothing of it is kept for the gate, which
asks more. What a killed build has proved stays in its folder: a library is taken again where its text, the kit and the libraries
below are the same, byte for byte."""
import contextlib
import copy
import fcntl
import hashlib
import importlib.machinery
import importlib.util
import os
import shutil
import tempfile
import threading

SEARCH, SECOND = "--empty-contracts", "rattle"


def loaded(path):
    """The kit's `rt` as a module."""
    loader = importlib.machinery.SourceFileLoader("rt", path)
    made = importlib.util.module_from_spec(importlib.util.spec_from_loader("rt", loader))
    loader.exec_module(made)
    return made


def kit():
    """The kit's `rt`, which leaves out the search and the second compiler in this process."""
    rt = loaded(os.path.realpath(shutil.which("rt")))
    told, built = rt.rtlib.help_of, rt.Crate.compile_by
    rt.rtlib.help_of = lambda verb: told(verb).replace(SEARCH, "")
    rt.Crate.compile_by = lambda crate, by, words, to: 0 if by == SECOND else built(crate, by, words, to)
    rt.Crate.cuts_libraries = True
    for name in (rt.rtlib.ALLOW_C, rt.rtlib.BACKEND, "RT_SECONDS"):
        os.environ.pop(name, None)
    return rt


def sum_of(parts):
    found = hashlib.sha256()
    for part in parts:
        found.update(repr(part).encode())
    return found.hexdigest()


class Run(threading.Thread):
    """A run over a folder of crates, which looks from outside like a process: it has a number, and ends with a status."""

    def __init__(self, top, seconds, log):
        super().__init__(daemon=True)
        self.top, self.seconds, self.log, self.pid, self.status = top, seconds, log, os.getpid(), None
        self.rt = kit()
        # (a signal's handler is set by its first call, which only the main thread may)
        self.rt.rtlib.guarded()
        os.chdir(top)
        self.rt.Crate.allowed, self.rt.rtlib.Crate = self.rt.handles_of(top), self.rt.Crate
        self.crates = {it.name: it for it in self.rt.rtlib.crates_below(top)}
        self.printing = threading.Lock()

    def poll(self):
        return self.status

    def wait(self):
        self.join()
        return self.status

    def run(self):
        try:
            with open(os.path.join(self.top, ".git", "rt-ci.lock"), "w") as lock:
                fcntl.flock(lock, fcntl.LOCK_EX)
                given = self.rt.in_lanes({(name, "proof"): self.task(crate) for name, crate in self.crates.items()})
            self.status = 0 if all(given.values()) else 1
        except BaseException as error:
            self.say(f"rt: the build ended early: {error!r}\n")
            self.status = 1

    def task(self, crate):
        """What a crate waits for, its seconds, its memory, and the call that proves it."""
        below = [(it.name, "proof") for it in crate.below()]
        return below, self.seconds(crate.name), self.rt.need(crate), lambda given, jobs: all(given[it] for it in below) and self.proved(crate, jobs)

    def say(self, text):
        with self.printing, open(self.log, "a") as log:
            log.write(text)

    def made(self, crate):
        """The file that says what the crate's library, or the program, was made of."""
        return os.path.join(crate.folder, "out", *([] if crate.is_program else ["rlib"]), "made-of")

    def is_there(self, crate):
        name = crate.name if crate.is_program else f"rlib/{crate.name}.rlib/format"
        return os.path.exists(os.path.join(crate.folder, "out", name))

    def sum_of(self, crate):
        """A sum of all that a proof of the crate reads: its own text, the kit, and the libraries below as they were built."""
        below = [(it.name, self.rt.rtlib.sum_of(f"{it.rlib}/format")) for it in crate.below()]
        return sum_of([crate.stamp(), below])

    def is_kept(self, crate):
        with contextlib.suppress(OSError), open(self.made(crate)) as file:
            return self.is_there(crate) and file.read() == self.sum_of(crate)
        return False

    def proved(self, crate, jobs):
        """Proves a crate, where an earlier run hasn't, and says so in the log; a library or the program stands then."""
        if self.is_kept(crate):
            self.say(f"rt: {crate.name} is kept: an earlier build proved the same text over the same libraries\n")
            return True
        one, path = copy.copy(crate), self.made(crate)
        with contextlib.suppress(OSError):
            os.remove(path)
        with tempfile.TemporaryFile("a+", errors="replace") as one.out:
            try:
                os.makedirs(os.path.join(crate.folder, "out"), exist_ok=True)
                status = one.ci(["--jobs", str(jobs)], False)
            except (OSError, SystemExit) as error:
                status = 2
                print(f"rt: {error}", file=one.out)
            one.out.seek(0)
            told = one.out.read()
        if not status:
            with open(path, "w") as file:
                file.write(self.sum_of(crate))
        self.say(f"== {crate.name}\n{told}rt: {crate.name} {'NOT PROVED' if status else 'proved'}\n")
        return not status
