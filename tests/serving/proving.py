"""Has `check` prove each VALUE of a run.

`check` counts the assertions of a policy file. So the credentials of a version stand in a file in their order, and the reply
is given to it with their places in that file and their number in place of their ids and the version.
"""

import concurrent.futures
import functools
import os
import subprocess
import threading

from serving import daemon

# the most seconds of one check
LIMIT = 60


def renamed(reply, credentials):
    """The reply as it would be over a policy file of these credentials."""
    index, name, _, rows = daemon.read_value(reply)
    places = {by: f"a{place}" for place, by in enumerate(credentials, 1)}
    return index, name, daemon.spell_value(index, name, len(credentials), [(level, places.get(by, by), who) for level, by, who in rows])


class Prover:
    def __init__(self, program, room):
        self.program, self.room, self.own = program, room, threading.local()

    def write(self, name, text):
        """A file of this thread."""
        path = os.path.join(self.room, f"{name}{threading.get_ident()}")
        with open(path, "wb") as file:
            file.write(text)
        return path

    def why_not(self, history, asked):
        """Why `check` doesn't prove this reply, or nothing."""
        credentials = history.versions[asked.version]
        index, name, reply = renamed(asked.reply, credentials)
        policy = b"\n".join(assertion.text for assertion in credentials.values())
        files = [self.write("policy", policy), self.write("script", asked.script), self.write("reply", reply)]
        checked = subprocess.run([self.program, "check", *files], stdin=subprocess.DEVNULL, capture_output=True, timeout=LIMIT)
        if checked.returncode == 0 and checked.stdout == f"PROVED {index} {name}\n".encode():
            return ""
        return f"check answers {checked.returncode}, {checked.stdout!r} to {asked.reply!r:.120} at version {asked.version}"

    def prove(self, history, asked):
        """The number of different replies, and why some of them aren't proved."""
        different = sorted(set(asked))
        with concurrent.futures.ThreadPoolExecutor(os.cpu_count()) as pool:
            told = pool.map(functools.partial(self.why_not, history), different)
            return len(different), [why for why in told if why]
