"""What a NEWS costs where a change leads elsewhere: it isn't settled anew."""

import hashlib
import os
import statistics
import subprocess
import tempfile
import time

CREDENTIALS, ROUNDS, SECRET = 2048, 60, "733363726574"
# so many times as long a NEWS has to take behind a change that may affect the policy
RATIO = 4


def assertion(authorizer, licensees):
    return f'Authorizer: "{authorizer}"\nLicensees: "{licensees}"\n'


class Gateway:
    """A start of `ask` with a standing query, which a chain of all credentials answers."""

    def __init__(self, program, folder, changes):
        names = ["POLICY"] + [f"a{i}" for i in range(1, CREDENTIALS + 1)]
        digests = [hashlib.sha256(text.encode()).hexdigest() for text in changes]
        texts = [assertion(one, other) for one, other in zip(names, names[1:])]
        keys = [f"secret {SECRET}", *(f"digest {digest}" for digest in digests)]
        paths = [self.write(folder, "policy.kn", "\n".join(texts)), self.write(folder, "keys", "\n".join(keys) + "\n")]
        self.run = subprocess.Popen([program, "ask", *paths], stdin=subprocess.PIPE, stdout=subprocess.PIPE, bufsize=0)
        for request in (f"ADMIN {SECRET}", "OPEN", f"AUTH 1 {names[-1]}", "WATCH 1 no,yes"):
            self.exchange(request)

    @staticmethod
    def write(folder, name, text):
        path = os.path.join(folder, name)
        with open(path, "w", encoding="ascii") as file:
            file.write(text)
        return path

    def exchange(self, request):
        """The reply, a line, and the seconds until it was read."""
        begun = time.perf_counter()
        self.run.stdin.write(request.encode() + b"\n")
        reply = self.run.stdout.read(1 << 16)
        return reply, time.perf_counter() - begun

    def time_news(self):
        reply, spent = self.exchange("NEWS 1")
        if not reply.startswith(b"NEWS 1 yes "):
            raise ValueError(f"NEWS is answered {reply!r:.100}")
        return spent

    def time_change(self, text):
        """The seconds of a NEWS behind the addition of a credential, and of one behind its removal."""
        added, _ = self.exchange(f"ADD {len(text)}\n{text}")
        raised = self.time_news()
        self.exchange(f"DROP {added.split()[1].decode()}")
        return [raised, self.time_news()]

    def close(self):
        self.run.stdin.close()
        self.run.stdout.close()
        self.run.wait()


def try_costs(program):
    """Prints what a NEWS takes behind changes of both kinds, and gives what is wrong, or None."""
    aside, within = assertion("c1", "c2"), assertion(f"a{CREDENTIALS // 2}", "c2")
    spent = {aside: [], within: []}
    with tempfile.TemporaryDirectory() as folder:
        gateway = Gateway(program, folder, list(spent))
        for _ in range(ROUNDS):
            for text, seconds in spent.items():
                seconds += gateway.time_change(text)
        gateway.close()
    elsewhere, affecting = (1e6 * statistics.median(spent[text]) for text in (aside, within))
    print(f"costs: a NEWS over a chain of {CREDENTIALS} credentials takes {elsewhere:.0f} microseconds behind a change "
          f"that leads elsewhere, and {affecting:.0f} behind one that may affect the policy")
    return "the first has to be quicker" if elsewhere * RATIO > affecting else None
