"""One request that is timed: what is said before it, the run that answers, and the least of several runs."""

import collections
import contextlib
import fcntl
import os
import select
import subprocess
import tempfile
import time

# the bytes that a pipe may hold, so that long replies aren't cut into small ones
PIPE_BYTES = 1 << 20
# replies that go on up to a line END
LONG = (b"VALUE ", b"CRITICAL ", b"LOG ")

# the files, the requests before, the request that is timed, and how its reply begins; where it ends the connection, the
# time is that to the end of the output
Trial = collections.namedtuple("Trial", "policy keys before request wanted ends", defaults=(False,))
# the seconds until the reply was read whole, and those of the processor that the program took
Times = collections.namedtuple("Times", "clock processor")


class Slow(Exception):
    """The reply takes longer than anybody waits for it here."""


class Wrong(Exception):
    """A request is answered otherwise than the trial says."""


def is_whole(reply):
    return reply.endswith(b"\nEND\n") if reply.startswith(LONG) else reply.endswith(b"\n")


class Run:
    """A start of `ask`."""

    def __init__(self, program, folder, trial):
        words = [program, "ask", write(folder, "policy", trial.policy), write(folder, "keys", trial.keys)]
        self.run = subprocess.Popen(words, stdin=subprocess.PIPE, stdout=subprocess.PIPE, bufsize=0)
        for pipe in (self.run.stdin, self.run.stdout):
            fcntl.fcntl(pipe, fcntl.F_SETPIPE_SZ, PIPE_BYTES)

    def processor(self):
        """The seconds of the processor that the program has taken so far, in the threads that it has."""
        folder, taken = f"/proc/{self.run.pid}/task", 0
        for thread in os.listdir(folder):
            with open(f"{folder}/{thread}/schedstat", encoding="ascii") as file:
                taken += int(file.read().split()[0])
        return taken / 1e9

    def all_processor(self):
        """The seconds of the processor that the program took in all, when it has ended."""
        _, status, used = os.wait4(self.run.pid, 0)
        self.run.returncode = os.waitstatus_to_exitcode(status)
        return used.ru_utime + used.ru_stime

    def read(self, end):
        if not select.select([self.run.stdout], [], [], max(0.0, end - time.monotonic()))[0]:
            raise Slow()
        return os.read(self.run.stdout.fileno(), PIPE_BYTES)

    def reply(self, request, seconds, ends=False):
        """The whole reply to a request; with `ends` all that comes up to the end of the output."""
        end, pieces, front, back = time.monotonic() + seconds, [], b"", b""
        self.run.stdin.write(request)
        while ends or not pieces or not is_whole(front + back):
            piece = self.read(end)
            if not piece:
                break
            pieces.append(piece)
            front, back = (front or piece[:16]), (back + piece)[-16:]
        return b"".join(pieces)

    def tell(self, trial, seconds):
        """What is said before."""
        for request in trial.before:
            reply = self.reply(request, seconds)
            if not reply.startswith((b"OK", b"NEWS ", b"VALUE ")):
                raise Wrong(f"{request!r:.60} is answered {reply!r:.100}")

    def time(self, trial, seconds):
        taken, begun = self.processor(), time.perf_counter()
        reply = self.reply(trial.request, seconds, trial.ends)
        spent = time.perf_counter() - begun
        if not reply.startswith(trial.wanted):
            raise Wrong(f"{trial.request!r:.60} is answered {reply!r:.100}")
        return Times(spent, (self.all_processor() if trial.ends else self.processor()) - taken)

    def close(self):
        with contextlib.suppress(OSError):
            self.run.stdin.close()
        if self.run.poll() is None:
            self.run.kill()
        self.run.stdout.close()
        self.run.wait()


def write(folder, name, text):
    path = os.path.join(folder, name)
    with open(path, "wb") as file:
        file.write(text)
    return path


def measure_once(program, trial, seconds):
    with tempfile.TemporaryDirectory() as folder:
        run = Run(program, folder, trial)
        try:
            run.tell(trial, max(60.0, seconds))
            return run.time(trial, seconds)
        finally:
            run.close()


def measure(program, trial, runs, seconds, enough):
    """The least times of so many runs. Where one takes longer than `enough` seconds it stands for all."""
    times = []
    for _ in range(runs):
        times.append(measure_once(program, trial, seconds))
        if times[-1].processor > enough:
            break
    return Times(min(each.clock for each in times), min(each.processor for each in times))
