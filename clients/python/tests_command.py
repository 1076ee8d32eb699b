"""Tests of the command, of the script `keynoted`, and of the package as pip installs it."""

import contextlib
import os
import shutil
import subprocess
import sys

import keynoted
from keynoted import sending
from tests_room import CREDENTIAL, HERE, PROGRAM, TOP, Room, version_of_the_repository


class Queries(Room):
    def test_statuses(self):
        words = ("query", "p.kn", "--values", "no,log,yes", "--auth")
        self.assertEqual(self.command(*words, "alice")[0], 0)
        self.assertEqual(self.command(*words, "alice", "--at-least", "log")[0], 0)
        self.assertEqual(self.command(*words, "bob")[0], 1)
        self.assertEqual(self.command(*words, "bob", "--at-least", "no")[0], 0)
        self.assertEqual(self.command(*words, "bob", "--at-least", "maybe")[0], 2)
        self.assertEqual(self.command(*words, "POLICY")[0], 2)
        self.assertEqual(self.command(*words, "a\nb")[0], 2)
        self.assertEqual(self.command("query", "gone.kn", "--values", "no,yes"), (2, "", "gone.kn: couldn't be read\n"))


    def test_connections_over_tcp(self):
        _, address = self.serve()
        for words in (("--auth", "alice"), ("--auth", "bob", "--at-least", "no")):
            self.assertEqual(self.command("query", "--connect", address, "--values", "no,yes", *words)[0], 0)
        status, out, errors = self.command("query", "--connect", address + "x", "--values", "no,yes")
        self.assertEqual((status, out), (2, ""))
        self.assertIn("a port is a number", errors)

    def test_an_order_that_is_surely_not_meant_is_warned_of(self):
        status, out, errors = self.command("query", "p.kn", "--values", "yes,no", "--auth", "bob")
        self.assertEqual((status, out.splitlines()[-1]), (1, "answer: yes, which is 0 of yes,no"))
        self.assertIn("the first value, yes, is what a refusal gives", errors)
        self.assertEqual(self.command("query", "p.kn", "--values", "no,yes", "--auth", "alice")[2], "")

    def test_a_record(self):
        words = ("query", "p.kn", "--values", "no,yes", "--auth", "alice", "--record", "talk")
        self.assertEqual(self.command(*words)[0], 0)
        with open("talk.requests", "rb") as file:
            self.assertEqual(file.read(), b"OPEN\nCLEAR 1\nPIN 1\nAUTH 1 alice\nQUERY 1 no,yes\nBYE\n")
        self.assertEqual(self.command(*words)[0], 2)

    def test_requests_that_are_sent_as_they_stand(self):
        script = b"OPEN\nopen\nASSERT 1 37\r\n%b\nAUTH 1 bob\nQUERY 1 no,yes\nADMIN 733363726574\n"
        script += b"ASSERT 1 0\n\nDROP a1\nBYE\nOPEN\n"
        command = [sys.executable, os.path.join(HERE, "keynoted.py"), "record", "talk", "p.kn", "--keys", "keys"]
        run = subprocess.run(command, input=script % CREDENTIAL, stdout=subprocess.PIPE)
        asked = subprocess.run([PROGRAM, "ask", "p.kn", "keys"], input=script % CREDENTIAL, stdout=subprocess.PIPE)
        self.assertEqual((run.returncode, run.stdout), (0, asked.stdout))
        with open("talk.requests", "rb") as requests, open("talk.replies", "rb") as replies:
            self.assertEqual(replies.read(), asked.stdout)
            self.assertEqual(requests.read().splitlines()[-5:], [b"ADMIN 00", b"ASSERT 1 0", b"", b"DROP a1", b"BYE"])
        self.assertEqual(len(list(sending.requests_in(b"OPEN\nASSERT 1 37\nAuth"))), 1)
        self.assertEqual(len(list(sending.requests_in(b"OPEN\nOPEN"))), 1)

    def test_a_policy_that_is_refused_is_told_by_its_place(self):
        self.write("p.kn", b'Authorizer: "POLICY"\nLicensees: alice\n')
        told = 'p.kn:2:12: alice is no local constant: a principal stands in quotes, "alice"\n'
        self.assertEqual(self.command("query", "p.kn", "--values", "no,yes"), (2, "", told))
        self.assertEqual(self.command("lint", "p.kn"), (2, "", told))


class Package(Room):
    """The library and the command as pip installs them, with what the machine has: nothing is fetched."""

    def test_pip_installs_both(self):
        python = next((it for it in (sys.executable, "/usr/bin/python3") if can_build(it)), None)
        if not python:
            print("clients/python: pip's installation is left out: there is no setuptools with wheel")
            return
        shutil.copytree(HERE, "python", ignore=shutil.ignore_patterns("__pycache__", "build", "*.egg-info"))
        words = [python, "-m", "pip", "install", "--quiet", "--no-build-isolation", "--no-index", "--no-deps"]
        words += ["--target", "lib", "./python"]
        run = subprocess.run(words, stdout=subprocess.PIPE, stderr=subprocess.STDOUT, text=True)
        self.assertEqual(run.returncode, 0, run.stdout)
        self.assertTrue(os.path.exists("lib/keynoted/py.typed"))
        env = dict(os.environ, PYTHONPATH=os.path.abspath("lib"))
        version = "import keynoted; print(keynoted.__version__)"
        run = subprocess.run([python, "-c", version], env=env, cwd="/", capture_output=True, text=True)
        self.assertEqual(run.stdout, version_of_the_repository() + "\n")
        query = [python, "lib/bin/keynoted-client", "query", "p.kn", "--auth", "alice", "--values", "no,yes"]
        run = subprocess.run(query, env=env, capture_output=True, text=True)
        self.assertEqual((run.returncode, run.stderr), (0, ""))
        self.assertEqual(run.stdout.splitlines()[-1], "answer: yes, which is 1 of no,yes")

    def test_make_installs_both_without_pip(self):
        words = ["make", "-C", TOP, "-o", "all", "install", f"PROGRAM={PROGRAM}", "PREFIX=/usr"]
        words.append(f"DESTDIR={self.room}/to")
        subprocess.run(words, check=True, stdout=subprocess.DEVNULL)
        env = {"PATH": "/usr/bin:/bin", "PYTHONDONTWRITEBYTECODE": "1"}
        query = ["to/usr/bin/keynoted-client", "query", "p.kn", "--auth", "alice", "--values", "no,yes"]
        run = subprocess.run(query, env=env, capture_output=True, text=True)
        self.assertEqual((run.returncode, run.stderr), (0, ""))
        self.assertEqual(run.stdout.splitlines()[-1], "answer: yes, which is 1 of no,yes")

    def test_types(self):
        probe = [[it, "-m", "mypy", "--version"] for it in (sys.executable, "/usr/bin/python3")]
        python = next((it[0] for it in probe if succeeds(it)), None)
        if not python:
            print("clients/python: the check of types is left out: there is no mypy")
            return
        words = [python, "-m", "mypy", "--strict", "--cache-dir", os.path.join(self.room, "cache"), "-p", "keynoted"]
        run = subprocess.run(words, cwd=HERE, stdout=subprocess.PIPE, stderr=subprocess.STDOUT, text=True)
        self.assertEqual(run.returncode, 0, run.stdout)

    def test_every_version_is_the_same(self):
        self.assertEqual(keynoted.__version__, version_of_the_repository())
        self.assertEqual([it for it in keynoted.__all__ if not hasattr(keynoted, it)], [])


def can_build(python):
    probe = "import setuptools, pip, wheel, sys; sys.exit(int(setuptools.__version__.split('.')[0]) < 61)"
    return succeeds([python, "-c", probe])


def succeeds(words):
    with contextlib.suppress(OSError):
        return not subprocess.run(words, stdout=subprocess.DEVNULL, stderr=subprocess.DEVNULL).returncode
    return False


class Script(Room):
    def run_script(self, *words):
        os.makedirs("libexec/keynoted", exist_ok=True)
        os.makedirs("bin", exist_ok=True)
        shutil.copy(os.path.join(TOP, "keynoted"), "bin/keynoted")
        shutil.copy(PROGRAM, "libexec/keynoted/keynoted")
        env = {"PATH": "/usr/bin:/bin"}
        words = ["bin/keynoted", *words]
        return subprocess.run(words, stdin=subprocess.DEVNULL, capture_output=True, text=True, env=env)

    def test_help_and_version(self):
        version = version_of_the_repository()
        for words in ([], ["help"], ["-h"], ["--help"], ["ask", "-h"], ["check", "--help"]):
            run = self.run_script(*words)
            self.assertEqual((run.returncode, run.stderr, run.stdout[:12]), (0, "", "keynoted ask"), words)
        for word in ("-V", "--version"):
            run = self.run_script(word)
            self.assertEqual((run.returncode, run.stdout, run.stderr), (0, f"keynoted {version}\n", ""))

    def test_unknown_words_have_the_daemons_line_and_a_sentence(self):
        for words in (["ask"], ["query"], ["help", "me"], ["check", "a"], ["ask", "a", "b", "c"]):
            run = self.run_script(*words)
            self.assertEqual((run.returncode, run.stdout), (1, "error words\n"))
            self.assertRegex(run.stderr, r"^keynoted: .*help.*\n$")

    def test_commands_are_passed_on(self):
        self.assertEqual(self.run_script("ask", "p.kn").returncode, 0)
        self.assertEqual(self.run_script("ask", "gone.kn").stdout, "error file gone.kn read\n")
