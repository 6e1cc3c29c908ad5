"""Runs of a program of which requests are refused, by the library of refuse.c."""

import os
import struct
import subprocess
import tempfile

TOP = os.path.dirname(os.path.dirname(os.path.abspath(__file__)))


def library(folder):
    """The library that refuses requests, built into a folder."""
    made = f"{folder}/refuse.so"
    words = [os.environ.get("CC", "cc"), "-O1", "-shared", "-fPIC", "-o", made, f"{TOP}/.ci/refuse.c"]
    subprocess.run(words, check=True)
    return made


class Bench:
    """A program, run so that the library refuses what an order says, and how often it was run."""

    def __init__(self, refuses, program):
        self.refuses, self.program, self.runs = refuses, program, 0

    def run(self, words, text, order):
        """The status, what was written, what was said, and how many requests of the order's kind there were."""
        # From a file each read gets what it asks for, so that two runs of a kind ask for the same.
        with tempfile.TemporaryFile() as given, tempfile.NamedTemporaryFile() as count:
            given.write(text)
            given.seek(0)
            count.write(bytes(8))
            count.seek(0)
            refuse = {"LD_PRELOAD": self.refuses, "REFUSE": order, "REFUSE_COUNT": count.name}
            how = {"stdin": given, "capture_output": True, "check": False, "env": refuse, "timeout": 60}
            ran = subprocess.run([self.program, *words], **how)
            self.runs += 1
            met = struct.unpack("<q", count.read())[0]
        return ran.returncode, ran.stdout, ran.stderr.decode(), met
