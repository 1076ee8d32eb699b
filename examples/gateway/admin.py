#!/usr/bin/env python3
"""Adds the shift leader's credential over TCP, asks by it and drops it again: admin.py HOST PORT."""
import os
import sys

HERE = os.path.dirname(os.path.abspath(__file__))
sys.path[:0] = [os.path.join(HERE, *path) for path in (["..", "..", "clients", "python"], ["..", "..", "..", "keynoted", "python"])]
import keynoted  # noqa: E402


def main() -> None:
    with open(os.path.join(HERE, "signed.kn"), "rb") as file:
        text = file.read()
    with keynoted.connect(sys.argv[1], int(sys.argv[2]), timeout=30) as daemon:
        daemon.admin(b"change me")
        name, version = daemon.add(text)
        print(f"added {name}, version {version}")
        with daemon.session() as session:
            session.auth("olga")
            for pair in ("app_domain=plant", "verb=set", "valve=7"):
                session.set(*pair.split("="))
            print(f"olga may {session.query('no', 'read', 'set').name}")
            print(f"dropped {name}, version {daemon.drop(name)}")
            session.pin()
            print(f"olga may {session.query('no', 'read', 'set').name}")


if __name__ == "__main__":
    main()
