#!/usr/bin/python3
"""Reads the replies of the demo's session with the two parsers of redis-py, its own and hiredis, and prints what they saw.

usage: read_replies.py SCRIPT PLAYER: the demo's script, and the program made from rust/exhash/examples/replies.rs, which plays it.
Debian's packages are installed if missing, which needs root.
"""
import socket
import subprocess
import sys

PACKAGES = ["python3-redis", "python3-hiredis"]

try:
    import hiredis
    import redis
except ImportError:
    subprocess.run(["apt-get", "update", "-qq"], check=True, stdout=subprocess.DEVNULL)
    subprocess.run(["apt-get", "install", "-qq", "-y", "--no-install-recommends", *PACKAGES],
                   check=True, stdout=subprocess.DEVNULL)
    import hiredis
    import redis
from redis.connection import Connection, HiredisParser, PythonParser


class Recorded(Connection):
    """A connection to a server that has sent all it will send."""

    def __init__(self, sent, parser):
        self.sent = sent
        super().__init__(parser_class=parser)

    def _connect(self):
        client, server = socket.socketpair()
        with server:
            server.sendall(self.sent)
        return client


def replies(sent, parser):
    """What the client sees until the server's bytes end."""
    connection = Recorded(sent, parser)
    connection.connect()
    seen = []
    while True:
        try:
            seen.append(connection.read_response())
        except redis.ResponseError as error:
            seen.append("error: %s" % error)
        except redis.ConnectionError:
            return seen


def main():
    script, player = sys.argv[1:]
    with open(script) as lines:
        presses = [line.rstrip("\n") for line in lines if line[0].isdigit()]
    with open(script) as lines:
        sent = subprocess.run([player], check=True, stdin=lines, capture_output=True).stdout
    own, fast = (replies(sent, parser) for parser in (PythonParser, HiredisParser))
    if own != fast or len(own) != len(presses):
        sys.exit("%d records; redis-py saw %r, hiredis %r" % (len(presses), own, fast))
    print("redis-py %s, hiredis %s" % (redis.__version__, hiredis.__version__))
    for press, reply in zip(presses, own):
        print("%-40s -> %r" % (press, reply))


if __name__ == "__main__":
    main()
