#!/usr/bin/env python3
"""A store that any program can use over two pipes: `lhash serve` answers each line that it is sent by a line.

    examples/client.py [PROGRAM]
"""

import subprocess
import sys
from concurrent.futures import ThreadPoolExecutor


class Fault(Exception):
    """A line was at fault, or memory ran out for it; the reason is what `serve` says. It has changed nothing."""


class Store:
    """A linear hash file in a process of its own, with keys of 1 to 56 bytes and values of up to 112."""

    def __init__(self, program):
        pipes = {"stdin": subprocess.PIPE, "stdout": subprocess.PIPE}
        self.process = subprocess.Popen([program, "serve"], encoding="ascii", **pipes)

    def send(self, lines):
        self.process.stdin.writelines(f"{line}\n" for line in lines)
        self.process.stdin.flush()

    def ask(self, *lines):
        """The answers to some lines, faults among them. They are read while others are sent: of many lines, both pipes
        would fill, and the store wait for its answers to be read."""
        with ThreadPoolExecutor(1) as sender:
            sent = sender.submit(self.send, lines)
            answers = [self.process.stdout.readline().rstrip("\n") for _ in lines]
            sent.result()
        return answers

    def ask_one(self, line):
        """The words of the answer to a line, or its fault."""
        word, *rest = self.ask(line)[0].split(" ", 1)
        if word == "fault":
            raise Fault(rest[0])
        return [word, *rest]

    def put(self, key, value):
        """Whether the record was added: not where the key is there already."""
        return self.ask_one(f"insert {key.hex()} {value.hex() or '-'}") == ["inserted"]

    def get(self, key):
        """The value of a key, or `None`."""
        word, *value = self.ask_one(f"search {key.hex()}")
        return bytes.fromhex(value[0].strip("-")) if word == "found" else None

    def close(self):
        self.process.stdin.close()
        return self.process.wait()


store = Store(sys.argv[1] if len(sys.argv) > 1 else "./lhash")
print(store.put(b"ada", b"0172"), store.put(b"ada", b"0173"), store.get(b"ada"), store.get(b"bob"))
print(store.ask("insert 626f62 30313733", "delete 616461", "frob", "records"))
print(store.close())
