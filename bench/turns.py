#!/usr/bin/env python3
"""Runs contestants in turns, and says how long each takes beside the first: medians of the ratios of a round.

    turns.py before=/path/to/lh_bench 'after=../crates/lh_bench/out/lh_bench'
    turns.py 'any=LH_BENCH' 'narrow=LH_BENCH --room 32' --workloads W1,W2,W4

In a round each workload is run at each size by all contestants one after the other, and the order turns round from one
round to the next. Times are of the processor, all threads together. With one thread the digests have to agree.
"""
import argparse
import json
import os
import shlex
import statistics
import subprocess
import sys
import tempfile


def run(words, workload, threads, records):
    asked = ["--workload", workload, "--threads", str(threads), "--records", str(records), "--seed", "1"]
    with tempfile.TemporaryDirectory(dir="/dev/shm", prefix="turns-") as folder:
        done = subprocess.run([*words, *asked], cwd=folder, capture_output=True, text=True, timeout=300)
    row = json.loads(done.stdout.splitlines()[-1])
    if row["check"] != "ok":
        sys.exit(f"{shlex.join([*words, *asked])}: {row['check']} {row.get('why', '')}")
    return row


def measured(contestants, shapes, rounds, out):
    """The rows of each contestant and shape, a round each."""
    rows = {(name, *shape): [] for name in contestants for shape in shapes}
    for turn in range(rounds):
        for shape in shapes:
            names = list(contestants)[:: 1 if turn % 2 == 0 else -1]
            found = {name: run(contestants[name], *shape) for name in names}
            if len({row["digest"] for row in found.values()}) > 1:
                sys.exit(f"{shape}: the digests differ")
            for name, row in found.items():
                rows[name, *shape].append(row)
                row.update(contestant=name, round=turn, load_average=os.getloadavg()[0])
                out.write(json.dumps(row) + "\n")
        print(f"round {turn + 1} of {rounds} is done", file=sys.stderr)
    return rows


def each(rows):
    """Nanoseconds of processor time a call, by round."""
    return [row["cpu_s"] / row["ops"] * 1e9 for row in rows]


def show(contestants, shapes, rows, most):
    first, *others = contestants
    heads = ["records", "", f"{first}, ns"]
    for name in others:
        heads += [f"{name}, ns", f"over {first}", "quarters"]
    print("| " + " | ".join([*heads, "wanted"]) + " |")
    print("|---" * (len(heads) + 1) + "|")
    for shape in shapes:
        workload, threads, records = shape
        base = each(rows[first, *shape])
        title = f"{workload}, {threads} threads" if threads > 1 else workload
        cells = [f"{records:,}", title, f"{statistics.median(base):.0f}"]
        for name in others:
            own = each(rows[name, *shape])
            ratios = [one / other for one, other in zip(own, base)]
            low, _, high = statistics.quantiles(ratios, n=4, method="inclusive") if len(ratios) > 1 else ratios * 3
            cells += [f"{statistics.median(own):.0f}", f"**{statistics.median(ratios):.2f}**"]
            cells += [f"{low:.2f} to {high:.2f}"]
        print("| " + " | ".join([*cells, most.get(workload, "")]) + " |")


def main():
    parser = argparse.ArgumentParser(description=__doc__, formatter_class=argparse.RawDescriptionHelpFormatter)
    parser.add_argument("contestants", nargs="+", metavar="NAME=PROGRAM")
    parser.add_argument("--workloads", default="W1,W2,W3,W4,W6,W8,W9")
    parser.add_argument("--records", default="3000,100000")
    parser.add_argument("--threads", type=int, default=1)
    parser.add_argument("--rounds", type=int, default=9)
    parser.add_argument("--wanted", default="", help="the most that a ratio is to be, as W1=0.9,W2=1.05: only printed")
    parser.add_argument("--out", default=os.devnull, help="append each run's line to this file")
    args = parser.parse_args()
    contestants = {}
    for it in args.contestants:
        name, _, program = it.partition("=")
        path, *words = shlex.split(program)
        contestants[name] = [os.path.abspath(path), *words]
    sizes, workloads = args.records.split(","), args.workloads.split(",")
    shapes = [(workload, args.threads, int(records)) for records in sizes for workload in workloads]
    with open(args.out, "a", encoding="ascii") as out:
        rows = measured(contestants, shapes, args.rounds, out)
    show(contestants, shapes, rows, dict(it.split("=") for it in args.wanted.split(",") if it))


main()
