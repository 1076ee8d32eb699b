"""The tests of the client in Go, where there is a go."""

import os
import shutil
import subprocess
import tempfile

from tests_room import PROGRAM, TOP, Room


class Go(Room):
    def test_the_client_in_go(self):
        if not shutil.which("go"):
            print("clients/go is left out: there is no go")
            return
        env = dict(os.environ, KEYNOTED=PROGRAM, GOFLAGS="-mod=mod", GO111MODULE="on")
        if "HOME" not in env and "GOCACHE" not in env:
            env["GOCACHE"] = os.path.join(tempfile.gettempdir(), "keynoted-go-cache")
        folder = os.path.join(TOP, "clients", "go")
        for words in (["go", "vet", "."], ["go", "test", "-count=1", "."]):
            run = subprocess.run(words, cwd=folder, env=env, stdin=subprocess.DEVNULL, stdout=subprocess.PIPE,
                                 stderr=subprocess.STDOUT)
            self.assertEqual(run.returncode, 0, run.stdout.decode("utf-8", "replace"))
