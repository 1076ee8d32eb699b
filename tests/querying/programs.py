"""The programs that answer a history, and whether two replies are one."""

import os
import subprocess
import threading

import protocol
from querying.histories import alone
from serving import talk
from serving.daemon import Fault

# the most seconds that a run may take
LIMIT = 600
# the connections of a daemon: each worker has a share of them, and that of one would do
CONNECTIONS = 200
# ports are taken by one daemon at a time
ONE_DAEMON = threading.Lock()


def is_same(one, other):
    """Whether two replies are one. The rows of a VALUE may have another order."""
    if one == other or not (one.startswith(b"VALUE ") and other.startswith(b"VALUE ")):
        return one == other
    (head, *rows), (head_of_other, *rows_of_other) = one.split(b"\n"), other.split(b"\n")
    return head == head_of_other and sorted(rows) == sorted(rows_of_other)


def write(folder, name, text):
    """Writes a file, whose path this gives."""
    path = os.path.join(folder, name)
    with open(path, "wb") as file:
        file.write(text)
    return path


class Room:
    """A folder with the files of one history."""

    def __init__(self, path, history):
        self.path, self.history = path, history
        self.policy = self.put("policy.kn", history.policy_file())
        self.keys = self.put("keys", history.key_file())

    def put(self, name, text):
        return write(self.path, name, text)

    def run(self, program, steps):
        """The replies to these steps of the history, with a text where the run ends otherwise than it has to."""
        text = b"".join(step.text for step in steps)
        return self.serve(program, steps) if self.history.workers else self.ask(program, text)

    def ask(self, program, text):
        """The replies to an input."""
        try:
            words = [program, "ask", self.policy, self.keys]
            run = subprocess.run(words, input=text, capture_output=True, timeout=LIMIT, check=False)
        except subprocess.TimeoutExpired:
            return [b"(it goes on for %d s)" % LIMIT]
        replies = protocol.split_replies(run.stdout)
        if run.returncode or run.stderr or b"".join(replies) != run.stdout:
            replies.append(b"(status %d, %b %b)" % (run.returncode, run.stdout[-200:], run.stderr[-200:]))
        return replies

    def serve(self, program, steps):
        """The replies of a daemon whose connections say these steps, one step behind the reply to the one before."""
        replies, talks = [], {}
        with ONE_DAEMON:
            daemon = talk.Daemon(program, self.policy, self.keys, self.history.workers, CONNECTIONS)
            try:
                for step in steps:
                    if step.peer not in talks:
                        talks[step.peer] = daemon.connect(step.peer)
                    replies += talks[step.peer].ask([step.text])
                    if step.sort == "end":
                        talks[step.peer].expect_end()
            except (Fault, OSError) as fault:
                replies.append(b"(%b)" % str(fault).encode())
            finally:
                daemon.close()
        return replies

    def check(self, program, place, reply):
        """What `check` finds wrong with the reply to a query at a version that a policy file makes, or None."""
        asked = self.history.steps[place]
        made = self.put("made.kn", b"\n".join(self.history.whole[:asked.version]))
        said = self.put("said", alone(self.history.steps, place, with_updates=False))
        words = [program, "check", made, said, self.put("reply", reply)]
        run = subprocess.run(words, stdin=subprocess.DEVNULL, capture_output=True, timeout=LIMIT, check=False)
        parts = reply.split(b"\n")[0].split(b" ")
        is_proved = run.returncode == 0 and run.stdout == b"PROVED %b %b\n" % (parts[1], parts[2])
        return None if is_proved else f"check ends with {run.returncode} and prints {run.stdout!r:.200}"
