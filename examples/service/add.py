#!/usr/bin/env python3
"""Adds credentials to a daemon that has started: add.py HOST PORT KEYS FILE..

A stop forgets what was added, so this belongs behind each start where the log isn't restored (docs/RESTARTS.md). Each
FILE holds one credential, and they are added in their order. The administrators' secret is that of the key file KEYS. A
line is printed for each file: the daemon's reply. The status is 1 where the daemon refuses one of them, or isn't there
within ten seconds.
"""
import socket
import sys
import time

SECONDS = 10


def secret_of(name):
    with open(name) as lines:
        secrets = [line.split()[1] for line in lines if line.startswith("secret ")]
    return secrets[0] if secrets else sys.exit(f"{name} has no secret")


def connect(host, port):
    """A connection to the daemon, which may not listen yet."""
    end = time.monotonic() + SECONDS
    while True:
        try:
            return socket.create_connection((host, port), SECONDS)
        except OSError as why:
            if time.monotonic() > end:
                sys.exit(f"no daemon at {host} {port}: {why}")
            time.sleep(0.1)


def main():
    host, port, keys, *files = sys.argv[1:]
    refused = False
    with connect(host, int(port)) as link, link.makefile("rb") as replies:
        link.sendall(f"ADMIN {secret_of(keys)}\n".encode())
        if replies.readline() != b"OK\n":
            sys.exit("the daemon has another secret")
        for name in files:
            with open(name, "rb") as file:
                text = file.read()
            link.sendall(b"ADD %d\n%s\n" % (len(text), text))
            reply = replies.readline().decode()
            refused |= not reply.startswith("OK ")
            print(f"{name}: {reply}", end="")
        link.sendall(b"BYE\n")
        replies.readline()
    return refused


if __name__ == "__main__":
    sys.exit(main())
