#!/usr/bin/env python3
"""Measures `lhash serve` over two pipes beside redis-server over a Unix socket, both with pipelining, and `lhash commands` on
the same calls: microseconds of the server's processor time a call, and calls a second by the clock; and how long a call takes
that is sent alone.

    bench/serve.py [--calls N] [--rounds R]

Keys and values have 16 bytes. First N keys are inserted (Redis: SETNX), then each is searched (GET). Redis keeps nothing on
disk here. `commands` takes scripts of up to 16 MiB, so it gets as many of the calls as that holds.
"""

import argparse
import hashlib
import os
import socket
import statistics
import subprocess
import tempfile
import threading
import time

TOP = os.path.dirname(os.path.dirname(os.path.abspath(__file__)))
PROGRAM = f"{TOP}/crates/lhash_program/out/lhash_program"
ALONE = 20_000
MOST_BYTES = 16 << 20


def bytes_of(kind, number):
    return hashlib.blake2b(f"{kind} {number}".encode(), digest_size=16).digest()


def resp(*words):
    return b"*%d\r\n" % len(words) + b"".join(b"$%d\r\n%s\r\n" % (len(word), word) for word in words)


class Lhash:
    """The program's answers, over two pipes."""

    def __init__(self, folder):
        self.process = subprocess.Popen([PROGRAM, "serve"], stdin=subprocess.PIPE, stdout=subprocess.PIPE, bufsize=0)
        self.input, self.output = self.process.stdin.fileno(), self.process.stdout.fileno()

    insert = staticmethod(lambda key, value: b"insert %s %s\n" % (key.hex().encode(), value.hex().encode()))
    search = staticmethod(lambda key: b"search %s\n" % key.hex().encode())
    inserted = staticmethod(lambda value: b"inserted\n")
    found = staticmethod(lambda value: b"found %s\n" % value.hex().encode())

    def end(self):
        self.process.stdin.close()
        self.process.wait()


class Redis:
    """redis-server's answers, over a Unix socket."""

    def __init__(self, folder):
        words = ["--port", "0", "--unixsocket", f"{folder}/redis", "--save", "", "--appendonly", "no", "--dir", folder]
        self.process = subprocess.Popen(["redis-server", *words], stdout=subprocess.DEVNULL)
        self.socket = socket.socket(socket.AF_UNIX)
        while self.socket.connect_ex(f"{folder}/redis"):
            time.sleep(0.05)
        self.input = self.output = self.socket.fileno()

    insert = staticmethod(lambda key, value: resp(b"SETNX", key, value))
    search = staticmethod(lambda key: resp(b"GET", key))
    inserted = staticmethod(lambda value: b":1\r\n")
    found = staticmethod(lambda value: b"$16\r\n%s\r\n" % value)

    def end(self):
        self.socket.close()
        self.process.terminate()
        self.process.wait()


def processor(process):
    with open(f"/proc/{process.pid}/stat", encoding="ascii") as file:
        fields = file.read().rpartition(")")[2].split()
    return (int(fields[11]) + int(fields[12])) / os.sysconf("SC_CLK_TCK")


def send(to, bytes_):
    left = memoryview(bytes_)
    while left:
        left = left[os.write(to, left[: 1 << 16]) :]


def hear(server, length):
    parts = []
    while length:
        parts.append(os.read(server.output, min(length, 1 << 16)))
        length -= len(parts[-1])
    return b"".join(parts)


def pipelined(server, requests, answers):
    """Microseconds of processor time and seconds by the clock that answering takes."""
    before, start = processor(server.process), time.monotonic()
    sender = threading.Thread(target=send, args=(server.input, requests))
    sender.start()
    heard = hear(server, len(answers))
    sender.join()
    assert heard == answers
    return processor(server.process) - before, time.monotonic() - start


def alone(server, requests, answers):
    """Microseconds by the clock of a call that is sent when the one before was answered."""
    start = time.monotonic()
    for request, answer in zip(requests, answers):
        send(server.input, request)
        assert hear(server, len(answer)) == answer
    return (time.monotonic() - start) / len(requests) * 1e6


def measured(kind, calls):
    keys, values = ([bytes_of(what, number) for number in range(calls)] for what in ("key", "value"))
    inserts = [kind.insert(*record) for record in zip(keys, values)]
    searches, found = [kind.search(key) for key in keys], [kind.found(value) for value in values]
    with tempfile.TemporaryDirectory() as folder:
        server = kind(folder)
        rows = [pipelined(server, b"".join(inserts), b"".join(map(kind.inserted, values)))]
        rows += [pipelined(server, b"".join(searches), b"".join(found))]
        one = alone(server, searches[:ALONE], found[:ALONE])
        server.end()
    return [rows[0][0] / calls * 1e6, calls / rows[0][1], rows[1][0] / calls * 1e6, calls / rows[1][1], one]


def scripted(calls):
    """Microseconds of processor time a call of `commands`, for inserts and as many searches."""
    keys = [bytes_of("key", number) for number in range(calls)]
    inserts = [Lhash.insert(key, bytes_of("value", number)) for number, key in enumerate(keys)]
    count = MOST_BYTES // (len(inserts[0]) + len(Lhash.search(keys[0])))
    script = b"".join(inserts[:count] + list(map(Lhash.search, keys[:count])))
    before = os.times()
    subprocess.run([PROGRAM, "commands"], input=script, stdout=subprocess.DEVNULL, check=True)
    after = os.times()
    spent = after.children_user + after.children_system - before.children_user - before.children_system
    return spent / (2 * min(count, calls)) * 1e6


def main():
    parser = argparse.ArgumentParser()
    parser.add_argument("--calls", type=int, default=1_000_000)
    parser.add_argument("--rounds", type=int, default=3)
    args = parser.parse_args()
    rounds = [{kind: measured(kind, args.calls) for kind in (Lhash, Redis)} for _ in range(args.rounds)]
    print("| | inserts, us of processor time | million a second | searches, us | million a second | one alone, us by the clock |")
    print("|---|---|---|---|---|---|")
    for kind in (Lhash, Redis):
        row = [statistics.median(them[kind][at] for them in rounds) for at in range(5)]
        print(f"| {kind.__name__} | {row[0]:.2f} | {row[1] / 1e6:.2f} | {row[2]:.2f} | {row[3] / 1e6:.2f} | {row[4]:.0f} |")
    print(f"commands: {statistics.median(scripted(args.calls) for _ in range(args.rounds)):.2f} us a call, of as many inserts and searches")


main()
