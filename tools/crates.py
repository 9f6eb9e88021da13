"""The repository's crates, the rooms in which rt works on them, and lanes in which work on several goes on side by side.

rt lets one command in at a time where a library is shared. So each crate has a room of its own: a folder with that crate,
what earlier runs kept of its proofs, and the libraries below it. It links the files of these: rt makes such a file new, and doesn't write
into one. What is kept takes some 10 GB of disk; copies would take 22 GB.
"""

import contextlib
import fcntl
import hashlib
import os
import re
import shutil
import signal
import subprocess
import sys
import tempfile
import threading
import time
from concurrent.futures import FIRST_COMPLETED, ThreadPoolExecutor, wait
from dataclasses import dataclass
from typing import Callable

MEMORY_OF_ONE = 3_000_000_000
# (each further job of a check costs processor time of its own)
MOST_JOBS = 4
# The processor seconds of a crate that was never measured.
UNKNOWN_COST = 60
SECONDS_TO_END = 5
TEXTS = ("src", "specs", "proofs")
# The names of libraries begin so. The program of the tests and benchmarks is no part of the product.
INNER, TRIALS = "drv_", "trials"


class Crates:
    """The crates of a repository, lowest first, each with those that it uses."""

    def __init__(self, root):
        self.root = os.path.realpath(root)
        self.rooms = f"{self.root}/.git/rooms" if os.path.isdir(f"{self.root}/.git") else f"{self.root}/.rooms"
        with open(f"{self.root}/crates.txt", encoding="utf-8") as file:
            self.lines = {re.split(r"[\s:]", line)[0]: line for line in file if line.partition("#")[0].strip()}
        words = {it: re.split(r"[\s,]+", line.partition("#")[0].partition(":")[2].strip()) for it, line in self.lines.items()}
        self.uses = {it: [other for other in words[it] if other in words] for it in words}
        self.of_kit = {it: [other for other in words[it] if other and other not in words] for it in words}
        self.names = sorted(self.uses, key=lambda it: len(self.below(it)))

    @property
    def kit(self):
        """The folder of the kit."""
        return os.path.dirname(os.path.dirname(os.path.realpath(shutil.which("rt"))))

    def folder(self, name):
        return f"{self.root}/crates/{name}"

    def built(self, name):
        """The folder with a crate's built library."""
        return f"{self.folder(name)}/out/rlib"

    def was_built(self, name, since):
        """Whether a crate was proved and built since a time. (rt ci leaves no stamp, and puts an older library back in the place of its own.)"""
        made = f"{self.folder(name)}/out/{name}" if self.is_program(name) else f"{self.built(name)}/{name}.rlib"
        return os.path.exists(made) and os.stat(made).st_mtime >= since

    def is_program(self, name):
        return os.path.isfile(f"{self.folder(name)}/src/main.rt")

    def below(self, name):
        """All crates that a crate uses, directly or not."""
        return set(self.uses[name]).union(*(self.below(it) for it in self.uses[name]))

    def with_below(self, names):
        """These crates and all that they use, lowest first."""
        found = set(names)
        found = found.union(*(self.below(it) for it in found))
        return [it for it in self.names if it in found]

    def programs(self):
        """The programs of the product."""
        return [it for it in self.names if self.is_program(it) and it != TRIALS]

    def program(self, name):
        """The name of a crate's program, which has hyphens where the crate's, which may have none, has underscores."""
        return name.replace("_", "-")

    @contextlib.contextmanager
    def held(self, names):
        """Keeps every other rt out of these crates, as rt itself does, and begins with no rooms."""
        files = [os.open(self.folder(it), os.O_RDONLY) for it in names]
        end_by_signals(stop)
        try:
            for it in files:
                fcntl.flock(it, fcntl.LOCK_EX)
            shutil.rmtree(self.rooms, ignore_errors=True)
            yield
        finally:
            shutil.rmtree(self.rooms, ignore_errors=True)
            for it in files:
                os.close(it)


class Runs:
    """The runs of rt that go on, each in a process group of its own, so that a signal to this process ends all of them."""

    lock, processes, is_stopped = threading.Lock(), set(), False

    @classmethod
    def begin(cls, words, **how):
        with cls.lock:
            if cls.is_stopped:
                raise InterruptedError("a signal ended it")
            process = subprocess.Popen(words, start_new_session=True, **how)
            cls.processes.add(process)
            return process

    @classmethod
    def end(cls, process):
        with cls.lock:
            cls.processes.discard(process)

    @classmethod
    def stop(cls):
        """Ends all runs, and lets no other begin. What doesn't end by itself is killed."""
        cls.is_stopped = True
        cls.signal(signal.SIGTERM)
        timer = threading.Timer(SECONDS_TO_END, cls.signal, [signal.SIGKILL])
        timer.daemon = True
        timer.start()

    @classmethod
    def signal(cls, number):
        for process in list(cls.processes):
            with contextlib.suppress(ProcessLookupError):
                os.killpg(process.pid, number)


def end_by_signals(way):
    """Has the signals that end this process do so in a way."""
    for it in (signal.SIGINT, signal.SIGTERM, signal.SIGHUP):
        signal.signal(it, way)


def stop(number, _):
    """Ends this process by a signal's number: the runs of rt first, and then the rooms are left and what is kept is put back."""
    end_by_signals(signal.SIG_IGN)
    Runs.stop()
    sys.exit(128 + number)


def link_or_copy(source, to):
    """Links a file that rt replaces and doesn't write into, and copies any other. (A library's checked.a has up to 300 MB.)"""
    return os.link(source, to) if source.endswith((".rt", ".antt", ".oantt", ".json", ".a")) else shutil.copy2(source, to)


class Room:
    """A folder in which rt finds a crate and the libraries below it. It is gone when it is left."""

    def __init__(self, crates, name):
        self.crates, self.name, self.of, self.seconds = crates, name, crates.folder(name), 0

    def __enter__(self):
        os.makedirs(self.crates.rooms, exist_ok=True)
        self.room = tempfile.mkdtemp(prefix=f"{self.name}-", dir=self.crates.rooms)
        self.folder = f"{self.room}/crates/{self.name}"
        named = self.crates.with_below([self.name])
        with open(f"{self.room}/crates.txt", "w", encoding="utf-8") as file:
            file.writelines(self.crates.lines[it] for it in named)
        for it in named:
            for part in TEXTS if it == self.name else (*TEXTS, "out/rlib"):
                self.take(it, part)
        return self

    def __exit__(self, *_):
        shutil.rmtree(self.room)

    def take(self, name, part):
        if os.path.isdir(f"{self.crates.folder(name)}/{part}"):
            shutil.copytree(f"{self.crates.folder(name)}/{part}", f"{self.room}/crates/{name}/{part}", copy_function=link_or_copy)

    def rt(self, *words):
        """Runs rt in the crate's folder, and gives its exit status and what it said."""
        status, said, seconds = run_in(self.folder, ["rt", *words])
        self.seconds += seconds
        return status, said


def run_in(folder, words):
    """Runs a command in a folder. Gives its exit status, what it said, and the processor seconds that it took."""
    with tempfile.TemporaryFile("w+", errors="replace") as said:
        ran = Runs.begin(words, cwd=folder, stdin=subprocess.DEVNULL, stdout=said, stderr=said)
        _, status, used = os.wait4(ran.pid, 0)
        Runs.end(ran)
        ran.returncode = os.waitstatus_to_exitcode(status)
        said.seek(0)
        return ran.returncode, said.read(), used.ru_utime + used.ru_stime


@dataclass
class Proof:
    """The result of proving and building a crate: what rt said if that failed, otherwise nothing; and processor seconds."""

    said: str
    seconds: float


def prove(crates, name, jobs):
    """Proves and builds a crate over what is kept of it."""
    # rt builds a program only to run it, here on no words and an empty input, and says so where it is proved and built.
    verb = "run" if crates.is_program(name) else "lib"
    with Room(crates, name) as room:
        out, kept = f"{room.folder}/out", f"{room.of}/out"
        if os.path.isdir(kept):
            os.rename(kept, out)
        try:
            status, said = room.rt(verb, "--jobs", str(jobs))
        finally:
            if os.path.isdir(out):
                os.rename(out, kept)
    is_well = "rt: running out/" in said if verb == "run" else status == 0
    return Proof("" if is_well else f"{said}{name} was not proved and built\n", room.seconds)


def kit():
    """The version of the kit; none where there is no kit."""
    if not shutil.which("rt"):
        return None
    ran = subprocess.run(["rt", "version"], stdin=subprocess.DEVNULL, capture_output=True, check=False)
    return ran.stdout.decode(errors="replace")


class Stamps:
    """What a crate's proof rests on and its result, as sums in crates/NAME/out/proved: the texts of the crate and of those below, its
    line of crates.txt, HANDLES and the kit. With them are place, size and time of each file that was built. A crate whose sums are those of
    its stamp is proved and built."""

    def __init__(self, crates):
        self.crates, self.kit, self.sums = crates, kit(), {}

    def texts(self, name):
        """The sum of all texts that a crate's proof rests on."""
        if name not in self.sums:
            summed = hashlib.sha256(f"{self.kit}\n{self.crates.lines[name]}\n{os.environ.get('RT_ALLOW_C', '')}\n".encode())
            for below in sorted(self.crates.uses[name]):
                summed.update(f"{below} {self.texts(below)}\n".encode())
            texts = (path for part in TEXTS for path in files_in(f"{self.crates.folder(name)}/{part}"))
            for path in [f"{self.crates.root}/HANDLES", *texts]:
                with open(path, "rb") as file:
                    summed.update(f"{os.path.relpath(path, self.crates.root)} {hashlib.sha256(file.read()).hexdigest()}\n".encode())
            self.sums[name] = summed.hexdigest()
        return self.sums[name]

    def stamp(self, name):
        """The text of a crate's stamp, as it must be now."""
        out = f"{self.crates.folder(name)}/out"
        paths = [f"{out}/{name}"] if self.crates.is_program(name) else files_in(f"{out}/rlib")
        built = [(os.path.relpath(it, out), os.stat(it)) for it in paths if os.path.isfile(it)]
        return f"texts {self.texts(name)}\n" + "".join(f"{path} {at.st_size} {at.st_mtime_ns}\n" for path, at in built) if built else None

    def is_proved(self, name):
        with contextlib.suppress(FileNotFoundError):
            return text_of(stamp_of(self.crates, name)) == self.stamp(name)
        return False

    def keep(self, name):
        """Stamps a crate that was proved over these texts."""
        text = self.stamp(name)
        if text and Stamps(self.crates).texts(name) == self.texts(name):
            write(stamp_of(self.crates, name), text)


def stamp_of(crates, name):
    return f"{crates.folder(name)}/out/proved"


def files_in(folder):
    """The files of a folder and of those in it, in order."""
    return sorted(f"{at}/{it}" for at, _, names in os.walk(folder) for it in names)


def text_of(path):
    with open(path, encoding="utf-8") as file:
        return file.read()


def write(path, text):
    """Writes a file, in the place of a link if there is one."""
    os.makedirs(os.path.dirname(path), exist_ok=True)
    if os.path.isfile(path):
        os.remove(path)
    with open(path, "w", encoding="utf-8") as file:
        file.write(text)


@dataclass
class Task:
    """A piece of work for a lane: the names of tasks that it waits for, its processor seconds as far as they are known, a call that
    takes a number of jobs, and the most jobs that it can use."""

    name: str
    after: list
    seconds: float
    call: Callable
    most: int = MOST_JOBS


def costs(crates):
    """The processor seconds that each crate took when they were last measured."""
    with open(f"{os.path.dirname(os.path.realpath(__file__))}/costs", encoding="utf-8") as file:
        known = {name: float(seconds) for name, seconds in map(str.split, file)}
    return {it: known.get(it, UNKNOWN_COST) for it in crates.names}


def free_memory():
    """The bytes of memory that are free."""
    with open("/proc/meminfo", encoding="utf-8") as file:
        return 1024 * int(re.search(r"MemAvailable: *(\d+)", file.read())[1])


def room_for():
    """How many checks the free memory has room for."""
    return free_memory() // MEMORY_OF_ONE


def lanes():
    """How many checks run side by side: one a processor, as far as memory goes."""
    return max(1, min(len(os.sched_getaffinity(0)), room_for()))


def chains(tasks):
    """The seconds of the longest chain of tasks from each one on. A task follows those that it waits for."""
    found = {}
    for it in reversed(tasks):
        found[it.name] = it.seconds + max((found[other.name] for other in tasks if it.name in other.after), default=0)
    return found


def result_of(future):
    """What a task gave; of one that broke off, why it did."""
    broken = future.exception()
    return Proof(f"it broke off: {repr(broken)[:400]}\n", 0) if broken else future.result()


def in_lanes(tasks, begun, ended):
    """Does tasks side by side, those of the longest chain first. Returns whether all were done. That of the longest chain has one job more
    and one for each idle lane, if memory allows. It calls `begun` with each task, and `ended` with each task and its result; if that
    answers no, no further task begins."""
    number, length, left = lanes(), chains(tasks), list(tasks)
    running, done, goes_on = {}, set(), True
    with ThreadPoolExecutor(number) as pool:
        while True:
            ready = [it for it in left if goes_on and done.issuperset(it.after)]
            idle = number - sum(jobs for _, jobs in running.values())
            chosen = sorted(ready, key=lambda it: -length[it.name])[: max(0, idle)]
            spare = max(0, min(idle + 1, room_for()) - len(chosen))
            for it in chosen:
                is_longest = all(length[it.name] > length[other.name] for other, _ in running.values())
                jobs = min(it.most, 1 + (spare if is_longest else 0))
                left.remove(it)
                begun(it)
                running[pool.submit(it.call, jobs)] = it, jobs
            if not running:
                return goes_on and not left
            for future in wait(running, return_when=FIRST_COMPLETED).done:
                it, _ = running.pop(future)
                done.add(it.name)
                goes_on = ended(it, result_of(future)) and goes_on


class Clock:
    """The minutes since it was made, before each line that it says."""

    def __init__(self):
        self.began = time.monotonic()

    def minutes(self):
        return (time.monotonic() - self.began) / 60

    def say(self, text):
        print(f"{self.minutes():5.1f} min  {text}", flush=True)
