"""Programs that a script runs: begun in a room of their own, and ended whatever happens."""

import contextlib
import json
import os
import re
import shutil
import signal
import subprocess
import sys
import tempfile
import time

from .frames import TIME_BASE
from .ports import Ports
from .script import fail, until

TOP = os.path.dirname(os.path.dirname(os.path.dirname(os.path.abspath(__file__))))


def program(name, *words):
    """The words that run a program: that of the variable of this name, or else `./pdc` with these words."""
    built = os.environ.get(name)
    return [os.path.realpath(built)] if built else [f"{TOP}/pdc", *words]


PDC = program("PDC")
CHECK = program("CHECK")
WATCH = program("WATCH", "watch")
RECORD = program("RECORD")


def settings(tables=(), **keys):
    """The text of settings: `pmu` and `node` are lists of tables. Keys that are left out here have values that suit most scripts: what
    comes while a program is held up for seconds is taken then."""
    usual = {"rate": 50, "nominal": 50, "time_base": TIME_BASE, "wait": 10, "window": 256, "ahead": 250, "layout_every": keys.get("rate", 50)}
    heads, tables = {}, []
    for key, value in {**usual, **keys}.items():
        if isinstance(value, list) and all(isinstance(it, dict) for it in value):
            tables += [(key, it) for it in value]
        elif value is not None:
            heads[key] = value
    text = "".join(f"{key} = {json.dumps(value)}\n" for key, value in heads.items())
    for name, table in tables:
        # (a PMU of the merger's is told by its source alone)
        more = {} if set(table) == {"source"} else {"time_base": TIME_BASE}
        text += f"[[{name}]]\n" + "".join(f"{key} = {json.dumps(value)}\n" for key, value in {**more, **table}.items())
    return text


class Program:
    """A program that runs, what it says going into files of its room."""

    def __init__(self, room, name, words, **more):
        self.name, self.words = name, words
        self.out, self.err = f"{room}/{name}.out", f"{room}/{name}.err"
        with open(self.out, "wb") as out, open(self.err, "wb") as err:
            given = {"stdin": subprocess.DEVNULL, "stdout": out, "stderr": err, "cwd": room, **more}
            self.process = subprocess.Popen(words, **given)
        self.begun, self.used = time.monotonic(), 0.0

    @property
    def pid(self):
        return self.process.pid

    def text(self, path):
        with open(path, encoding="utf-8", errors="replace") as it:
            return it.read()

    @property
    def said(self):
        """What it told on standard error up to now."""
        return self.text(self.err)

    @property
    def printed(self):
        """What it printed on standard output up to now."""
        return self.text(self.out)

    def is_running(self):
        return not self.has_ended()

    def says(self, pattern, limit=30):
        """Waits until standard error has this pattern, and returns what was found."""

        def found():
            told = re.search(pattern, self.said)
            if not told and not self.is_running():
                fail(f"{self.name} ended with status {self.process.returncode} and never told {pattern!r}:\n{self.printed}{self.said}")
            return told

        return until(f"{self.name} tells {pattern!r}", found, limit, lambda: self.said[-2000:])

    def adopts(self, devices, limit=30):
        """Waits until a node or the merger has adopted a configuration of each of these PMUs, under the count that it has."""

        def adopted():
            lines = [line for line in self.said.splitlines() if "layout adopted" in line]
            return all(any(re.search(rf"PMU {it.ident} count={it.count}\b", line) for line in lines) for it in devices)

        until(f"{self.name} has adopted each configuration", adopted, limit, lambda: self.said[-2000:])
        return self

    def begins(self, limit=30):
        """Waits until a node or the merger has told that it begins."""
        self.says(" begins: ", limit)
        return self

    def end(self, limit=60, status=0):
        """Waits for its end, which is to be of this status, and returns what it printed. What it took of processors is in `used` then."""
        until(f"{self.name} has ended", self.has_ended, limit, lambda: self.said[-2000:])
        if status is not None and self.process.returncode != status:
            fail(f"{self.name} ended with status {self.process.returncode}, not {status}:\n{self.printed[-2000:]}{self.said[-2000:]}")
        return self.printed

    def has_ended(self):
        if self.process.returncode is None:
            pid, status, used = os.wait4(self.pid, os.WNOHANG)
            if pid:
                self.process.returncode = os.waitstatus_to_exitcode(status)
                self.used = (used.ru_utime + used.ru_stime) / (time.monotonic() - self.begun)
        return self.process.returncode is not None

    def totals(self, limit=60):
        """The counters of a node's or the merger's end: taken, refused and published."""
        told = re.search(r"^taken=(\d+) refused=(\d+) published=(\d+)$", self.end(limit), re.M)
        if not told:
            fail(f"{self.name} printed no counters: {self.printed!r}")
        return tuple(map(int, told.groups()))

    def kill(self, by=signal.SIGKILL):
        with contextlib.suppress(ProcessLookupError):
            self.process.send_signal(by)
        self.process.wait()

    def resident(self):
        """Its memory in kB."""
        with open(f"/proc/{self.pid}/status", encoding="ascii") as it:
            return int(re.search(r"VmRSS:\s+(\d+)", it.read())[1])


class Room:
    """A folder, ports and programs, which all go when it is left."""

    def __init__(self):
        # In the short form a store is to take no longer where a disk is busy.
        is_short = "--quick" in sys.argv and os.access("/dev/shm", os.W_OK)
        self.path = tempfile.mkdtemp(prefix="pdc-test-", dir="/dev/shm" if is_short else None)
        self.ports = Ports()
        self.programs = []

    def __enter__(self):
        return self

    def __exit__(self, *_):
        for it in self.programs:
            it.kill()
        self.ports.close()
        shutil.rmtree(self.path, ignore_errors=True)

    def put(self, name, content):
        """Writes a file, and returns its path."""
        path = f"{self.path}/{name}"
        with open(path, "wb") as it:
            it.write(content.encode() if isinstance(content, str) else content)
        return path

    def mark(self, name, ident, rate=50):
        """Makes the mark NAME.mark where there is none."""
        if not os.path.exists(f"{self.path}/{name}.mark"):
            subprocess.run([*PDC, "mark-init", f"{name}.mark", str(ident), str(rate)], cwd=self.path, check=True)

    def begin(self, name, *words, **more):
        """Begins any program."""
        it = Program(self.path, name, [str(word) for word in words], **more)
        self.programs.append(it)
        return it

    def concentrator(self, command, name, text, *words, **more):
        """Begins a node or the merger on NAME.toml, which has this text, and NAME.mark."""
        if text is not None:
            self.put(f"{name}.toml", text)
        with open(f"{self.path}/{name}.toml", encoding="utf-8") as it:
            keys = dict(re.findall(r"(?m)^(id|rate) = (\d+)$", it.read().split("[[")[0]))
        self.mark(name, keys["id"], keys["rate"])
        return self.begin(name, *PDC, command, f"{name}.toml", f"{name}.mark", *words, **more)

    def node(self, name, text=None, *words, **more):
        return self.concentrator("node", name, text, *words, **more)

    def merger(self, name, text=None, *words, **more):
        return self.concentrator("merge", name, text, *words, **more)

    def pmu(self, ident, rate, frames, *places, name=None):
        """A simulated PMU of the program's own."""
        return self.begin(name or f"pmu{ident}", *PDC, "pmu", ident, rate, frames, *places)

    def run(self, *words, given=b"", limit=60, of=None):
        """Runs the program to its end. Returns its status, and what it printed on both streams."""
        done = subprocess.run([*(of or PDC), *map(str, words)], cwd=self.path, input=given, capture_output=True, timeout=limit, check=False)
        return done.returncode, done.stdout.decode(errors="replace"), done.stderr.decode(errors="replace")
