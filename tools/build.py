"""Proves and builds the program, its crates side by side, and leaves it as crates/lotbook/out/lotbook.

    tools/build.py

Each crate is proved as soon as those below it are, the one with the longest chain above it first, as many at a time as there are
processors and memory. The one that leads, with the longest chain of all that is left, gets several of them, and goes before the
others; one that is alone gets several, too. Progress goes to standard error, and what the kit prints to crates/lotbook/out/build.log.

A call of the kit keeps others out of the folder of each crate that it reads. So each crate is proved in a room, a folder of its own
with the sources as they were when the build began, and with the libraries that were built before. What the kit leaves there is then
moved to the crate's own out/. A build that is stopped loses the crates in work, and the next one goes on with those. What the program
was built from is said by crates/lotbook/out/sums, beside it, which has the date at which the build began. The rooms stand
below .git, or where there is none in a folder for temporary files, since the kit's gate refuses a second crates.txt anywhere else in
the repository.

The status is 0 where the program stands, 3 where another call was building it, which has ended now, and else 1. After a signal
nothing that was started here goes on.
"""

import contextlib
import ctypes
import fcntl
import hashlib
import json
import os
import re
import selectors
import shutil
import signal
import subprocess
import sys
import tempfile
import time

ROOT = os.path.dirname(os.path.dirname(os.path.abspath(__file__)))
PROGRAM = "lotbook"
OUT = f"{ROOT}/crates/{PROGRAM}/out"
ROOMS = f"{ROOT}/.git/rooms" if os.path.isdir(f"{ROOT}/.git") else f"{tempfile.gettempdir()}/lotbook-rooms-{os.getpid()}"
TAKEN = f"{ROOMS}/sources"  # crates.txt and crates/ as they were when the build began
SOURCES = f"{TAKEN}/crates"
PARTS = ("src", "specs", "proofs")
MOST_JOBS = 4  # a check gains little from more
BEHIND = 10  # by so much crates that don't lead are nicer
MORE = 1.2  # so many times as much a check costs with several jobs
EVERY = 20  # seconds from one report to the next

RT = shutil.which("rt")


class Stopped(Exception):
    """A signal, or the end of the call that this one works for."""


def say(text):
    with contextlib.suppress(OSError):
        print(f"lotbook: {text}", file=sys.stderr, flush=True)


def pace(jobs):
    """How much faster so many jobs are than one."""
    return 0.65 + 0.35 * jobs


def minutes(seconds):
    return f"{seconds:.0f} s" if seconds < 90 else f"{seconds / 60:.0f} min"


# ---- crates


def read(path):
    with open(path, encoding="utf-8", errors="replace") as it:
        return it.read()


def listed(folder):
    """The libraries that each crate of a folder's crates.txt stands on, those of the kit too."""
    lines = (line.split("#")[0].replace(":", " ").split() for line in read(f"{folder}/crates.txt").splitlines())
    return {words[0]: words[1:] for words in lines if words}


def below(crates, top):
    """The crates of the repository that one stands on, each behind those that it stands on itself, and it."""
    found = []

    def visit(name):
        if name in crates and name not in found:
            for it in crates[name]:
                visit(it)
            found.append(name)

    visit(top)
    return found


def files_below(folder):
    for at, folders, names in os.walk(folder):
        folders.sort()
        for name in sorted(names):
            yield os.path.join(at, name)


class Crate:
    def __init__(self, name, crates, known, times):
        self.name, self.home = name, f"{ROOT}/crates/{name}"
        self.names = below(crates, name)[:-1]
        self.uses = [it for it in crates[name] if it in crates]
        self.sqlite = any(it.startswith("sqlite") for at in [*self.names, name] for it in crates[at])
        self.is_program = name == PROGRAM
        self.sum = self.summed(crates[name], [known[it].sum for it in self.uses])
        self.lines = sum(read(it).count("\n") for it in files_below(f"{SOURCES}/{name}") if it.endswith(".rt"))
        texts = "".join(read(it) for it in files_below(f"{SOURCES}/{name}/src") if not it.endswith("tests.rt"))
        functions = len(re.findall(r"(?m)^\s*(?:pub(?:\(\w+\))? )?(?:const )?fn ", texts))
        self.functions, self.seconds = times.get(name, (functions, 20 + 4 * functions + 100 * self.sqlite + 200 * self.is_program))
        self.begun = self.took = self.cost = self.run = None
        self.counted, self.last, self.retried, self.leads = functions, [], False, False

    def summed(self, line, sums):
        """A sum of all that the library is made from."""
        made = hashlib.sha256(repr((kit(), line, sums)).encode())
        for file in files_below(f"{SOURCES}/{self.name}"):
            with open(file, "rb") as it:
                made.update(repr((file[len(SOURCES) :], it.read())).encode())
        return made.hexdigest()

    def is_built(self):
        """Whether its library stands, made from the same."""
        try:
            return not self.is_program and read(f"{self.home}/out/rlib/sources.sum") == self.sum
        except OSError:
            return False

    def need(self):
        """The memory that a check may take, in bytes."""
        return 1_200_000_000 + 1_000_000 * self.lines + 1_000_000_000 * self.sqlite + 1_500_000_000 * self.is_program

    def room(self):
        return f"{ROOMS}/{self.name}"

    def at_work(self):
        return f"{self.room()}/crates/{self.name}"


def kit():
    with contextlib.suppress(OSError):
        return read(os.path.join(os.path.dirname(os.path.realpath(RT)), "..", "KIT-ID")).strip()
    return ""


# ---- rooms


def link_or_copy(one, other):
    try:
        os.link(one, other)
    except OSError:
        shutil.copy2(one, other)


def moved(one, other):
    """Moves a file or folder, in the place of what is there."""
    if os.path.isdir(other) and not os.path.islink(other):
        shutil.rmtree(other)
    os.makedirs(os.path.dirname(other), exist_ok=True)
    if os.path.isfile(one):
        # A file appears whole, also where it comes from another disk.
        shutil.move(one, f"{other}.new")
        os.replace(f"{other}.new", other)
    else:
        shutil.move(one, other)


def snapshot():
    """Takes the sources as they are now. Returns the crates of the program, each behind those that it stands on, with these."""
    shutil.rmtree(TAKEN, ignore_errors=True)
    os.makedirs(TAKEN)
    shutil.copy2(f"{ROOT}/crates.txt", TAKEN)
    crates = listed(TAKEN)
    for name in below(crates, PROGRAM):
        for part in PARTS:
            if os.path.isdir(f"{ROOT}/crates/{name}/{part}"):
                shutil.copytree(f"{ROOT}/crates/{name}/{part}", f"{SOURCES}/{name}/{part}")
    return {name: crates[name] for name in below(crates, PROGRAM)}


def furnish(crate):
    """Makes the crate's room, in which the kit works on it."""
    shutil.rmtree(crate.room(), ignore_errors=True)
    os.makedirs(crate.room())
    if os.path.isfile(f"{ROOT}/HANDLES"):
        shutil.copy2(f"{ROOT}/HANDLES", crate.room())
    crates = listed(TAKEN)
    with open(f"{crate.room()}/crates.txt", "w", encoding="utf-8") as it:
        it.writelines(f"{name}: {' '.join(crates[name])}\n" for name in [*crate.names, crate.name])
    for name in [*crate.names, crate.name]:
        shutil.copytree(f"{SOURCES}/{name}", f"{crate.room()}/crates/{name}", copy_function=link_or_copy)
    for name in crate.names:
        shutil.copytree(f"{ROOT}/crates/{name}/out/rlib", f"{crate.room()}/crates/{name}/out/rlib", copy_function=link_or_copy)
    os.makedirs(f"{crate.at_work()}/out")
    if os.path.isdir(f"{crate.home}/out/incremental"):
        moved(f"{crate.home}/out/incremental", f"{crate.at_work()}/out/incremental")
    for file in (f"{PROGRAM}", f"{PROGRAM}.stamp"):
        if crate.is_program and os.path.isfile(f"{crate.home}/out/{file}"):
            shutil.copy2(f"{crate.home}/out/{file}", f"{crate.at_work()}/out")


def clear(name, is_proved=False):
    """Moves what the kit left in a crate's room to the crate's own out/, and takes the room away."""
    room, home = f"{ROOMS}/{name}", f"{ROOT}/crates/{name}/out"
    left = f"{room}/crates/{name}/out"
    if os.path.isdir(left):
        for it in os.listdir(left):
            if is_proved or it == "incremental":
                moved(f"{left}/{it}", f"{home}/{it}")
    shutil.rmtree(room, ignore_errors=True)


def leftovers():
    """Rooms of a build that was killed."""
    if os.path.isdir(ROOMS):
        for name in os.listdir(ROOMS):
            clear(name)


# ---- what there is


def free():
    """The memory that may be taken, in bytes."""
    found = [int(re.search(r"MemAvailable:\s+(\d+)", read("/proc/meminfo"))[1]) * 1024]
    with contextlib.suppress(OSError, ValueError):
        limit, held = read("/sys/fs/cgroup/memory.max"), read("/sys/fs/cgroup/memory.current")
        found.append(int(limit) - int(held))
    return 0.85 * min(found)


def processors():
    found = len(os.sched_getaffinity(0))
    with contextlib.suppress(OSError, ValueError):
        quota, period = map(int, read("/sys/fs/cgroup/cpu.max").split())
        found = min(found, max(quota // period, 1))
    return found


# ---- the build


class Build:
    def __init__(self, crates, lanes, memory):
        self.crates, self.lanes, self.memory = crates, lanes, memory
        self.todo = [it for it in crates.values() if not it.is_built()]
        self.work = sum(it.seconds for it in self.todo)
        self.ended = {it.name for it in crates.values() if it.is_built()}
        self.begun, self.reported = time.monotonic(), 0
        self.running, self.selector = [], selectors.DefaultSelector()
        self.log = open(f"{OUT}/build.log", "w", encoding="utf-8", errors="replace")
        self.parent = os.getppid()

    def chains(self):
        """For each crate that is left, the seconds of the longest chain that begins with it."""
        found = {}
        for it in reversed(list(self.crates.values())):
            above = [found[other.name] for other in self.crates.values() if it.name in other.uses and other.name in found]
            found[it.name] = it.seconds + max(above, default=0)
        return found

    def ready(self):
        chains = self.chains()
        found = [it for it in self.todo if it.begun is None and all(name in self.ended for name in it.names)]
        return sorted(found, key=lambda it: -chains[it.name])

    def start(self):
        """Starts as many of the crates that can be proved as there is room for."""
        ready, chains = self.ready(), self.chains()
        for at, crate in enumerate(ready):
            idle = self.lanes - sum(1 if it.leads else it.jobs for it in self.running)
            room = self.memory - sum(it.need() * (0.4 + 0.6 * it.jobs) for it in self.running)
            if idle <= 0 or (self.running and (room < crate.need() or any(it.retried for it in [crate, *self.running]))):
                return
            spare = 1 + int(max(room / crate.need() - 1, 0) / 0.6)
            share = -(-idle // (len(ready) - at))  # what is left over goes to the longest chain, which comes first
            alone = crate.retried or self.awaits_longer(crate)
            crate.leads = not crate.retried and chains[crate.name] >= max(chains[it.name] for it in self.todo)
            wanted = self.lanes if crate.leads else 1 if alone else share
            self.begin(crate, max(1, min(MOST_JOBS, wanted, spare)))

    def awaits_longer(self, crate):
        """Whether a longer chain waits for another crate: it gets the processors that will be idle then."""
        chains, ready = self.chains(), self.ready()
        waiting = (it for it in self.todo if it.begun is None and it not in ready and crate.name not in it.names)
        return any(chains[it.name] > chains[crate.name] for it in waiting)

    def begin(self, crate, jobs):
        furnish(crate)
        crate.jobs, crate.begun = jobs, time.monotonic()
        words = proves(crate, jobs)
        how = {"stdin": subprocess.DEVNULL, "stdout": subprocess.PIPE, "stderr": subprocess.STDOUT}
        first = end_with_parent if crate.leads else end_with_parent_behind_others
        crate.run = subprocess.Popen(words, cwd=crate.at_work(), start_new_session=True, preexec_fn=first, **how)
        crate.part = ""
        self.selector.register(crate.run.stdout, selectors.EVENT_READ, crate)
        self.running.append(crate)
        self.report(f"{'building the program' if crate.is_program else 'proving ' + crate.name}")

    def hear(self, crate):
        """Reads what the kit says of a crate. Returns whether that was all."""
        said = os.read(crate.run.stdout.fileno(), 65536).decode(errors="replace")
        *lines, crate.part = (crate.part + said).split("\n")
        for line in [*lines, *([crate.part] if not said and crate.part else [])]:
            print(f"{crate.name}: {line}", file=self.log, flush=True)
            crate.last = [*crate.last[-14:], line]
            found = re.match(r"logic=proved functions=(\d+)", line)
            if found:
                crate.counted = int(found[1])
        return not said

    def end(self, crate):
        """Takes in how the kit's work on a crate ended. Returns whether that is well."""
        self.selector.unregister(crate.run.stdout)
        crate.run.stdout.close()
        _, ended, used = os.wait4(crate.run.pid, 0)
        status = crate.run.returncode = os.WEXITSTATUS(ended) if os.WIFEXITED(ended) else -os.WTERMSIG(ended)
        crate.cost = used.ru_utime + used.ru_stime
        self.running.remove(crate)
        crate.took = time.monotonic() - crate.begun
        wanted = f"{crate.at_work()}/out/{PROGRAM}" if crate.is_program else f"{crate.at_work()}/out/rlib/stamp"
        if status == 0 and os.path.exists(wanted):
            if not crate.is_program:
                with open(f"{crate.at_work()}/out/rlib/sources.sum", "w", encoding="utf-8") as it:
                    it.write(crate.sum)
            clear(crate.name, is_proved=True)
            self.todo.remove(crate)
            self.ended.add(crate.name)
            self.note(crate)
            self.report(f"{crate.name} is {'built' if crate.is_program else 'proved'}, in {minutes(crate.took)}")
            return True
        clear(crate.name)
        if not crate.retried and any("killed" in it for it in crate.last):
            say(f"the check of {crate.name} was killed, most likely for memory: once more, with nothing beside it")
            crate.retried, crate.begun = True, None
            return True
        say(f"{crate.name} can't be proved or built; its last lines, all of which are in crates/{PROGRAM}/out/build.log:")
        with contextlib.suppress(OSError):
            print(*crate.last, sep="\n", file=sys.stderr, flush=True)
        return False

    def note(self, crate):
        """Notes what a crate took, for the next build's reports."""
        times = noted(f"{OUT}/times.json")
        # A check over kept work takes less.
        seconds = max(round(crate.cost / (1 if crate.jobs == 1 else MORE)), times.get(crate.name, (0, 0))[1])
        times[crate.name] = (crate.counted, seconds)
        with open(f"{OUT}/times.json", "w", encoding="utf-8") as it:
            json.dump(times, it, indent=0, sort_keys=True)

    def rest(self, crate):
        """About how many seconds of one processor are left of a crate."""
        if crate.begun is None:
            return crate.seconds
        share = pace(crate.jobs) if crate.leads or len(self.running) == 1 else 0.7
        return max(crate.seconds - share * (time.monotonic() - crate.begun), 0.1 * crate.seconds)

    def left(self):
        """About how many seconds are left: all work on all processors, at the pace so far, or the longest chain."""
        rest = sum(self.rest(it) for it in self.todo)
        planned = (self.work - rest) / self.lanes
        slower = min(max((time.monotonic() - self.begun) / planned, 0.2), 5) if planned > 60 else 1
        chains = self.chains()
        longest = max((chains[it.name] - it.seconds + self.rest(it) for it in self.todo), default=0)
        return max(rest / self.lanes * slower, longest / pace(min(self.lanes, MOST_JOBS)))

    def report(self, what=""):
        now = time.monotonic()
        if not what and now - self.reported < EVERY:
            return
        self.reported = now
        if not what:
            what = "at " + ", ".join(f"{it.name} for {minutes(now - it.begun)}" for it in self.running)
        done = sum(it.functions for it in self.crates.values() if it.name in self.ended)
        of = f"{len(self.ended)} of {len(self.crates)} crates, {done} of {sum(it.functions for it in self.crates.values())} functions"
        say(f"{what}; {of}; {minutes(now - self.begun)} so far, about {minutes(self.left())} more")

    def whole(self):
        """Proves and builds all. Returns whether the program stands."""
        while self.todo:
            self.start()
            for key, _ in self.selector.select(1):
                if self.hear(key.data) and not self.end(key.data):
                    return False
            if os.getppid() != self.parent:
                raise Stopped(signal.SIGTERM)
            self.report()
        return True

    def stop(self):
        """Ends what runs, and keeps what it did."""
        for signal_, patience in ((signal.SIGTERM, 5), (signal.SIGKILL, 60)):
            for crate in self.running:
                with contextlib.suppress(ProcessLookupError):
                    os.killpg(crate.run.pid, signal_)
            ended = time.monotonic() + patience
            while any(it.run.poll() is None for it in self.running) and time.monotonic() < ended:
                time.sleep(0.05)
        for crate in self.running:
            clear(crate.name)
        self.running = []


def proves(crate, jobs):
    """What proves a crate in its room, or builds the program there."""
    if crate.is_program:
        return [RT, "run", "--jobs", str(jobs)]
    rt = os.path.realpath(RT)
    # Work that is kept makes each later check quick.
    is_new = not os.path.exists(f"{crate.home}/out/rlib") and not os.path.exists(f"{crate.at_work()}/out/incremental")
    if is_new and os.path.isfile(f"{os.path.dirname(rt)}/rtlib.py"):
        return [sys.executable, f"{ROOT}/tools/library.py", rt, str(jobs)]
    return [RT, "lib", "--jobs", str(jobs)]


def end_with_parent():
    """In a process that was just started: it ends where this one is killed."""
    with contextlib.suppress(OSError, AttributeError):
        LIBC.prctl(1, signal.SIGKILL)


def end_with_parent_behind_others():
    """The same; and the system lets others go before it, also where it shares processors by sessions."""
    end_with_parent()
    with contextlib.suppress(OSError):
        os.nice(BEHIND)
        with open("/proc/self/autogroup", "w", encoding="ascii") as it:
            it.write(str(BEHIND))


try:
    LIBC = ctypes.CDLL(None)
except OSError:
    LIBC = None


def noted(path):
    """What crates took: functions and seconds with one job."""
    try:
        return json.loads(read(path))
    except (OSError, ValueError):
        return {}


def held(path):
    """A lock on a file or folder that no other call has, once it has ended; and whether it had to be waited for."""
    at = os.open(path, os.O_RDONLY | (0 if os.path.isdir(path) else os.O_CREAT), 0o666)
    try:
        fcntl.flock(at, fcntl.LOCK_EX | fcntl.LOCK_NB)
    except BlockingIOError:
        return at, True
    except OSError:
        pass  # some file systems have no locks
    return at, False


def stopped(number, _):
    raise Stopped(number)


# ---- what the program was built from


def tool(name, *words):
    """What a script of tools/ prints."""
    found = subprocess.run([f"{ROOT}/tools/{name}", *words], stdin=subprocess.DEVNULL, stdout=subprocess.PIPE, text=True, check=False)
    return found.stdout.strip() if found.returncode == 0 else ""


def note(sources, begun):
    """Writes the program's sums beside it, with the time at which its build began: what is changed later is newer."""
    sums = tool("sums", f"{OUT}/{PROGRAM}", sources, kit())
    if sources and sums:
        with open(f"{OUT}/sums.new", "w", encoding="utf-8") as it:
            it.write(f"{sums}\n")
        os.utime(f"{OUT}/sums.new", (begun, begun))
        os.replace(f"{OUT}/sums.new", f"{OUT}/sums")


def is_stamped():
    """Whether the program stands already: `rt run` left it, and by the kit's stamp it is of what stands here. If so it is noted."""
    if not os.path.exists(f"{OUT}/{PROGRAM}.stamp"):
        return False
    begun, sources = now(), tool("sources", kit())
    words = [sys.executable, "-B", f"{ROOT}/tools/stamped.py", os.path.realpath(RT), f"{ROOT}/crates/{PROGRAM}"]
    if subprocess.run(words, stdin=subprocess.DEVNULL, stderr=subprocess.DEVNULL, check=False).returncode != 0 or tool("sources", kit()) != sources:
        return False
    note(sources, begun)
    return True


def now():
    """The time, somewhat before that of a file that is written now: the system's dates of files lag a little."""
    return time.time() - 0.02


def built():
    os.makedirs(OUT, exist_ok=True)
    lock, is_other = held(f"{ROOT}/tools/build.py")
    if is_other:
        say("another call is proving and building the program; waiting for it")
        fcntl.flock(lock, fcntl.LOCK_EX)
        return 3
    locks = []
    for name in below(listed(ROOT), PROGRAM):
        locks.append(held(f"{ROOT}/crates/{name}"))
        if locks[-1][1]:
            say(f"waiting for another command of the kit to finish in crates/{name}")
            fcntl.flock(locks[-1][0], fcntl.LOCK_EX)
    if is_stamped():
        say("it stands: the kit's stamp says that it was built from these sources")
        return 0
    leftovers()
    os.makedirs(ROOMS, 0o700, exist_ok=True)
    begun, crates = now(), snapshot()
    known, times = {}, {**noted(f"{ROOT}/tools/times.json"), **noted(f"{OUT}/times.json")}
    for name in crates:
        known[name] = Crate(name, crates, known, times)
    build = Build(known, processors(), free())
    try:
        is_well = build.whole()
        if is_well:
            note(tool("sources", kit(), TAKEN), begun)
    finally:
        build.stop()
        shutil.rmtree(ROOMS, ignore_errors=True)
    if is_well:
        say(f"ready after {minutes(time.monotonic() - build.begun)}")
    return 0 if is_well else 1


def main():
    for number in (signal.SIGINT, signal.SIGTERM, signal.SIGHUP):
        if signal.getsignal(number) != signal.SIG_IGN:
            signal.signal(number, stopped)
    try:
        return built()
    except Stopped as it:
        say("stopped; the next call goes on from here")
        # The call that this one works for is to see that a signal ended it.
        signal.signal(it.args[0], signal.SIG_DFL)
        os.kill(os.getpid(), it.args[0])
    return 1


if __name__ == "__main__":
    sys.exit(main())
