"""Tests of the log of updates for several daemons: a stand-in for etcd, and daemons with their agents."""

import base64
import contextlib
import hashlib
import hmac
import http.server
import io
import json
import os
import subprocess
import sys
import threading
import time
import unittest.mock

import keynoted
from keynoted.agent import Agent
from keynoted.etcd import UpdateLog, WrongLog
from keynoted.link import address_of
from keynoted.updates import block_of
from tests_room import HERE, POLICY, Room, free_port

SECONDS = 60
CODE = b"sig-hmac-sha256-hex:"


def signed(who, key=b"\x0b\x0b"):
    """A credential by which alice licenses somebody."""
    text = b'Authorizer: "alice"\nLicensees: "%b"\n' % who
    return text + b'Signature: "%b%b"\n' % (CODE, hmac.new(key, text + CODE, hashlib.sha256).hexdigest().encode())


class FakeEtcd:
    """As much of etcd's gateway as the log of updates uses; it can be away, or lose its reply to a write."""

    def __init__(self):
        self.kept, self.lost, self.lock = {}, 0, threading.Lock()
        self.port, self.server = free_port(), None
        self.address = f"http://127.0.0.1:{self.port}"
        self.start()

    def start(self):
        fake = self

        class Handler(http.server.BaseHTTPRequestHandler):
            def do_POST(self):
                wanted = json.loads(self.rfile.read(int(self.headers["Content-Length"])))
                told = fake.reply(self.path, wanted)
                if told is None:
                    return
                self.send_response(200)
                self.end_headers()
                self.wfile.write(json.dumps({"header": {}, **told}).encode())

            def log_message(self, *_):
                pass

        self.server = http.server.ThreadingHTTPServer(("127.0.0.1", self.port), Handler)
        threading.Thread(target=self.server.serve_forever, args=(0.02,), daemon=True).start()

    def stop(self):
        if self.server:
            self.server.shutdown()
            self.server.server_close()
            self.server = None

    def reply(self, path, wanted):
        with self.lock:
            if path == "/v3/kv/range":
                return self.range(wanted)
            done = all(map(self.holds, wanted["compare"]))
            for step in wanted["success"] if done else ():
                self.put(text_of(step["request_put"]["key"]), text_of(step["request_put"]["value"]))
            if done and self.lost and len(wanted["compare"]) > 1:
                self.lost -= 1
                return None
            if done:
                return {"succeeded": True}
            others = [self.range(it["request_range"]) for it in wanted.get("failure", ())]
            return {"responses": [{"response_range": it} for it in others]}

    def holds(self, compare):
        value, version = self.kept.get(text_of(compare["key"]), (b"", 0))
        if compare["target"] == "VALUE":
            return version > 0 and value == text_of(compare["value"])
        return (version > 0) == (compare["result"] == "GREATER")

    def put(self, key, value):
        self.kept[key] = (value, self.kept.get(key, (b"", 0))[1] + 1)

    def range(self, wanted):
        key = text_of(wanted["key"])
        end = text_of(wanted["range_end"]) if "range_end" in wanted else key + b"\0"
        found = sorted(it for it in self.kept if key <= it < end)[:int(wanted.get("limit", 1))]
        return {"kvs": [{"key": coded(it), "value": coded(value), "version": str(version)}
                        for it, (value, version) in ((it, self.kept[it]) for it in found)]}

    def updates(self):
        return [value for key, (value, _) in sorted(self.kept.items()) if b"/updates/" in key]


def text_of(text):
    return base64.b64decode(text)


def coded(text):
    return base64.b64encode(text).decode()


class Agents(Room):
    def setUp(self):
        super().setUp()
        self.etcd = FakeEtcd()
        self.addCleanup(self.etcd.stop)
        for who in (b"bob", b"carol", b"dora"):
            self.write(f"{who.decode()}.kn", signed(who))

    def submit(self, *words, wait="20"):
        return self.command("submit", "--etcd", self.etcd.address, "--policy", "p.kn", "--keys", "keys", "--wait", wait,
                            *words)

    def agent(self, address, name="agent"):
        """An agent of this daemon, which ends with the test; what it prints is in a file of this name."""
        ready = f"127.0.0.1:{free_port()}"
        with open(name, "wb") as log:
            words = [sys.executable, os.path.join(HERE, "keynoted.py"), "agent", "--etcd", self.etcd.address,
                     "--connect", address, "--keys", "keys", "--ready", ready]
            process = subprocess.Popen(words, stdin=subprocess.DEVNULL, stdout=log, stderr=log)
        self.addCleanup(process.wait)
        self.addCleanup(process.kill)
        return process, ready

    def log_of(self, address):
        with keynoted.connect(address) as daemon:
            daemon.admin(b"s3cret")
            return [block_of(it) for it in daemon.log()]

    def wait_for(self, what, told="it doesn't come"):
        deadline = time.monotonic() + SECONDS
        while not what():
            self.assertLess(time.monotonic(), deadline, told)
            time.sleep(0.05)

    def said(self, name="agent"):
        with open(name, encoding="utf-8") as file:
            return file.read()

    def is_open(self, ready):
        with contextlib.suppress(keynoted.LinkEnded):
            keynoted.link.dial(*address_of(ready), 1.0).close()
            return True
        return False

    def ends(self, process, *words):
        """An agent ends with status 2, and says these words."""
        self.assertEqual(process.wait(SECONDS), 2)
        for word in words:
            self.assertIn(word, self.said())

    def test_every_daemon_gets_every_update_in_order(self):
        addresses = [self.serve()[1] for _ in range(2)]
        for number, address in enumerate(addresses):
            self.agent(address, f"agent{number}")
        self.assertEqual(self.submit("bob.kn"), (0, "added a2, bob.kn\nversion 2\n", ""))
        status, out, _ = self.submit("carol.kn", "dora.kn", "--drop", "bob.kn")
        self.assertEqual((status, out), (0, "dropped a2, bob.kn\nadded a3, carol.kn\nadded a4, dora.kn\nversion 3\n"))
        wanted = [b"ADD %d\n%b\n" % (len(POLICY), POLICY), *self.etcd.updates()]
        self.assertEqual(len(wanted), 3)
        for address in addresses:
            self.wait_for(lambda: self.log_of(address) == wanted)

    def test_writers_side_by_side_lose_nothing(self):
        names = [f"many{number}.kn" for number in range(6)]
        for name in names:
            self.write(name, signed(name.encode()))
        words = [sys.executable, os.path.join(HERE, "keynoted.py"), "submit", "--etcd", self.etcd.address,
                 "--policy", "p.kn", "--keys", "keys"]
        writers = [subprocess.Popen([*words, it], stdout=subprocess.DEVNULL) for it in names]
        self.assertEqual([it.wait(SECONDS) for it in writers], [0] * 6)
        texts = [signed(name.encode()) for name in names]
        self.assertEqual(sorted(self.etcd.updates()), sorted(b"ADD %d\n%b\n" % (len(it), it) for it in texts))

    def test_what_the_daemon_refuses_is_not_written(self):
        self.write("wrong.kn", signed(b"mallory", b"another"))
        status, _, errors = self.submit("bob.kn", "wrong.kn")
        self.assertEqual(status, 2)
        self.assertIn("wrong.kn", errors)
        status, _, errors = self.submit("--drop", "carol.kn")
        self.assertIn("no live credential has the text of carol.kn", errors)
        self.assertEqual(self.etcd.updates(), [])

    def test_a_lost_reply_writes_once(self):
        self.etcd.lost = 1
        self.assertEqual(self.submit("bob.kn")[:2], (0, "added a2, bob.kn\nversion 2\n"))
        self.assertEqual(len(self.etcd.updates()), 1)

    def test_etcd_is_away_for_a_while(self):
        _, address = self.serve()
        _, ready = self.agent(address)
        self.wait_for(lambda: self.is_open(ready))
        self.etcd.stop()
        self.wait_for(lambda: "no etcd, so updates wait and version 1 stays" in self.said())
        status, _, errors = self.submit("bob.kn", wait="0")
        self.assertEqual(status, 2)
        self.assertIn("no etcd, and nothing was written", errors)
        self.assertTrue(self.is_open(ready))
        with keynoted.connect(address) as daemon:
            self.assertTrue(daemon.ask(["alice"], {}, ["no", "yes"]).at_least("yes"))
        self.etcd.start()
        self.assertEqual(self.submit("bob.kn")[0], 0)
        self.wait_for(lambda: len(self.log_of(address)) == 2)

    def test_a_daemon_that_starts_again_gets_all_updates(self):
        process, address = self.serve()
        self.agent(address)
        for who in ("bob", "carol"):
            self.submit(f"{who}.kn")
        self.wait_for(lambda: len(self.log_of(address)) == 3)
        before = self.log_of(address)
        process.kill()
        process.wait()
        self.wait_for(lambda: "waiting for it" in self.said())
        self.serve(port=int(address.partition(":")[2]))
        self.wait_for(lambda: self.log_of(address) == before)

    def test_an_agent_that_starts_again_goes_on_behind_the_daemon(self):
        _, address = self.serve()
        first, _ = self.agent(address)
        self.submit("bob.kn")
        self.wait_for(lambda: len(self.log_of(address)) == 2)
        first.kill()
        self.submit("carol.kn")
        self.agent(address, "second")
        self.wait_for(lambda: len(self.log_of(address)) == 3)
        self.wait_for(lambda: "version 3" in self.said("second"))

    def test_the_door_is_closed_while_updates_lack(self):
        self.submit("bob.kn")
        self.etcd.stop()
        process, address = self.serve()
        _, ready = self.agent(address)
        self.wait_for(lambda: "no etcd" in self.said())
        self.assertFalse(self.is_open(ready))
        self.etcd.start()
        self.wait_for(lambda: self.is_open(ready))
        self.assertEqual(len(self.log_of(address)), 2)
        process.kill()
        self.wait_for(lambda: not self.is_open(ready))

    def test_another_policy_ends_the_agent(self):
        self.submit("bob.kn")
        self.write("p.kn", POLICY + b"\n" + POLICY)
        _, address = self.serve()
        self.ends(self.agent(address)[0], "the log in etcd is for another policy file: there it is 1 assertions",
                  "here 2 assertions")
        self.assertIn("another policy file", self.submit("carol.kn")[2])

    def test_another_administrator_ends_the_agent(self):
        _, address = self.serve()
        process, ready = self.agent(address)
        self.wait_for(lambda: self.is_open(ready))
        with keynoted.connect(address) as daemon:
            daemon.admin(b"s3cret")
            daemon.add(signed(b"bob"))
        self.ends(process, "another administrator has changed the daemon", "its version is 2")
        self.ends(self.agent(address)[0], "has update 2, which the log in etcd hasn't")
        self.submit("carol.kn")
        self.ends(self.agent(address)[0], "update 2 of the daemon", "isn't that of the log")

    def test_a_log_that_lost_an_update_ends_the_agent(self):
        self.submit("bob.kn")
        self.submit("carol.kn")
        _, address = self.serve()
        process, ready = self.agent(address)
        self.wait_for(lambda: self.is_open(ready))
        self.etcd.kept.pop(b"/keynoted/updates/00000003")
        self.ends(process, "the log in etcd has lost update 3")
        self.ends(self.agent(address)[0], "has update 3, which the log in etcd hasn't")

    def test_an_agent_connects_anew_before_its_requests_are_used_up(self):
        _, address = self.serve()
        with unittest.mock.patch("keynoted.agent.LEFT", keynoted.wire.REQUESTS - 20):
            agent = Agent(UpdateLog([self.etcd.address]), address, "keys", None)
            with keynoted.connect(address) as daemon:
                daemon.admin(b"s3cret")
                with contextlib.redirect_stdout(io.StringIO()):
                    agent._follow(daemon)
                self.assertGreater(daemon.left(), keynoted.wire.REQUESTS - 30)

    def test_a_refused_update_ends_the_agent(self):
        self.submit("bob.kn")
        self.submit("carol.kn")
        self.write("keys", b"mac 0c0c alice\nsecret 733363726574\n")
        _, address = self.serve()
        process, ready = self.agent(address)
        self.ends(process, "refuses update 2", "stays at version 1", "NO 17 item 1 7 auth 4")
        self.assertFalse(self.is_open(ready))
        self.assertEqual(len(self.log_of(address)), 1)
        self.assertIn("update 2 of the log is refused here", self.submit("dora.kn")[2])

    def test_a_log_with_a_gap_or_an_overwritten_key_is_none(self):
        log = UpdateLog([self.etcd.address])
        self.etcd.put(b"/keynoted/updates/00000003", b"DROP a1\n")
        with self.assertRaisesRegex(WrongLog, "where update 2 is due"):
            log.blocks(1)
        self.etcd.put(b"/keynoted/updates/00000002", b"DROP a1\n")
        self.assertEqual(log.blocks(1), [b"DROP a1\n"] * 2)
        self.etcd.put(b"/keynoted/updates/00000002", b"DROP a1\n")
        with self.assertRaisesRegex(WrongLog, "update 2 was written 2 times"):
            log.blocks(1)

    def test_words_at_fault(self):
        for words in (["--etcd", "127.0.0.1:2379"], ["--etcd", "http://"]):
            status, _, errors = self.command("submit", *words, "--policy", "p.kn", "--keys", "keys", "bob.kn")
            self.assertEqual(status, 2)
            self.assertIn("an address of etcd is http://HOST:PORT", errors)
        self.assertIn("is wanted", self.submit()[2])
