"""Calls of the program that are stopped: killed at some moment, or by a limit on the length of files, which stands for a disk without room."""

import collections
import resource
import signal
import time

import notes

IN_THE_MIDDLE = ("fault S4 Device", "fault S5 InDoubt")
FAULTS = (*IN_THE_MIDDLE, "fault open")
TOO_LARGE = b"File too large (os error 27)"


def kill_at(running, seconds):
    """Kills a call after so many seconds, and returns what it had written by then."""
    time.sleep(seconds)
    running.kill()
    return running.communicate(timeout=600)[0]


def killed(kills, begin, moment, done, fault_then, early):
    """What is wrong where a call is killed so often, or nothing.

    `begin` starts the call, which writes nothing but the line `done`; `moment` gives the seconds to the stop of a number. `fault_then` is
    given the number and whether the line was written, and returns how the stop left the file, and what is wrong with it, or nothing. One
    stop in ten has to hit the call before that line, and one at least leaves the file as `early`."""
    untold, left = 0, collections.Counter()
    for number in range(kills):
        running = begin()
        output = kill_at(running, moment(number))
        untold += running.returncode < 0 and not output
        if output not in (b"", done.encode() + b"\n"):
            return f"stop {number}: it said {output[:60]}"
        state, fault = fault_then(number, bool(output))
        if fault:
            return f"stop {number}: {fault}"
        left[state] += 1
    return "" if untold >= kills / 10 and left[early] else f"only {untold} of {kills} stops hit the call; they left {dict(left)}"


def limited(room):
    """What a process calls at its start for no file of it to get longer than so many bytes."""

    def limit():
        signal.signal(signal.SIGXFSZ, signal.SIG_IGN)
        resource.setrlimit(resource.RLIMIT_FSIZE, (room, room))

    return limit


def fault_of_limited(output, status, errors, done, cause=TOO_LARGE):
    """What is wrong with the answer of a call whose files are limited, or nothing: it is the line `done`, or a fault of the store, whose
    cause standard error names."""
    told = f"{output[:80]!r}, status {status}, messages {errors[:80]!r}"
    if notes.without(errors) or (errors and status == 0):
        return told
    if (output, status) != (done + "\n", 0) and (output not in [it + "\n" for it in FAULTS] or status != 4):
        return told
    return f"without the cause: {told}" if status == 4 and cause not in errors else ""


def without_room(rooms, enough, roomless, done):
    """What is wrong where files may be of several lengths, or nothing. `roomless` calls the program where they may be of one; it returns what
    is wrong, or nothing, and what the program said, which is `done` where there is room enough."""
    said = set()
    for room in rooms:
        fault, output = roomless(room)
        if fault:
            return f"with room for {room} bytes: {fault}"
        said.add(output.rstrip("\n"))
    if not said & {*IN_THE_MIDDLE}:
        return f"no stop in the middle: {said}"
    fault, output = roomless(enough)
    return fault or ("" if output == done + "\n" else f"with room enough: {output!r}")
