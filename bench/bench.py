#!/usr/bin/env python3
"""Runs lh_bench and the peers in rounds and prints the tables. README.md says what the workloads are.

In one round each workload is run at each size by all peers one after the other, so that a ratio compares runs that
stand close in time. The tables of a size give the median over the rounds, of speeds and of ratios apart.
"""
import argparse
import json
import os
import shlex
import statistics
import subprocess
import sys
import tempfile
import time

HERE = os.path.dirname(os.path.abspath(__file__))
# Those that keep a file come last; within a group the order is that of the table.
PEERS = ["null", "lh_bench", "lh_lent", "lh_shards1", "lh_shards16", "lh_traced", "lh_image1", "twin", "twin_nostamp", "twin_tags", "rust_shard", "rust_shard_sip", "dashmap_fnv", "dashmap", "absl_shard", "libcuckoo", "tbb", "urcu_sized", "urcu",
         "std_shard", "std_onelock", "kc_stash", "kc_hash", "tc_hash", "lmdb", "tinycdb", "tdb", "gdbm", "bdb_hash"]
FILE = "../../crates/lh_bench/out/lh_bench"
# The words that make another contestant of lh_bench.
WORDS = {"lh_bench": [], "lh_lent": ["--lent"], "lh_shards1": ["--shards", "1"], "lh_shards16": ["--shards", "16"],
         "lh_traced": ["--traced"], "lh_image1": ["--image", "1"]}
PROGRAM = {"libcuckoo": "cuckoo", "bdb_hash": "bdb", **{name: FILE for name in WORDS}}
ONLY = {"lh_image1": {"W5", "W10"}}  # the workloads of a peer, where it has not all
UNRANKED = {"null"}
REFERENCE = "std_onelock"  # its digests at one thread are those due
# What the pictures show, and under which names; the bars of those that are this file are red.
OURS = {"lh_bench": "this file", "lh_default": "this file", "lh_room64": "with room 64", "lh_room32": "of small records"}
SHOWN = {**OURS, "twin_tags": "the same in C++", "dashmap": "DashMap", "tbb": "oneTBB", "libcuckoo": "libcuckoo",
         "std_onelock": "one lock", "kc_hash": "Kyoto Cabinet", "lmdb": "LMDB", "tdb": "TDB", "gdbm": "GDBM", "bdb_hash": "Berkeley DB"}
TITLES = {"W1": "W1 inserts", "W2": "W2 searches", "W3": "W3, 1 insert to 19 searches", "W4": "W4, half are writes",
          "W5": "W5, to a file and back", "W6": "W6 new values", "W7": "W7, skewed searches", "W8": "W8, searches that miss",
          "W9": "W9, as W4, long records", "W14": "W14, counters"}
# One thread makes passes over all records while the others call, or reads the clock alone; these have tables of their own.
PASSES = {"W11": "W11, snapshots", "W12": "W12, scans"}
BESIDE = {"W11": "snapshots", "W12": "scans", "W13": "the clock"}
# From which class of lengths on the calls of a column took as long as its head says.
AT_LEAST = {">= 4 us": 3, ">= 16 us": 5, ">= 64 us": 7, ">= 256 us": 9, ">= 4 ms": 13, ">= 16 ms": 15}
# How many threads are tried, where --threads says nothing; the other workloads have one.
THREADS = {"W3": "1,2,4", "W4": "1,2,4", "W7": "1,4", "W8": "1,4", "W9": "1,4", "W11": "1,3", "W12": "1,3", "W13": "1,3", "W14": "1,4"}


def numbers(text):
    return [int(x) for x in text.split(",")]


def run(name, program, workload, threads, records, args):
    words = [*program, "--workload", workload, "--threads", str(threads), "--records", str(records), "--seed", str(args.seed)]
    with tempfile.TemporaryDirectory(dir=args.dir, prefix="bench-") as scratch:
        start = time.time()
        try:
            done = subprocess.run(words, cwd=scratch, capture_output=True, text=True, timeout=args.limit)
            lines = done.stdout.strip().splitlines()
            row = json.loads(lines[-1]) if lines else {"check": "no line: " + done.stderr.strip()[:80]}
        except subprocess.TimeoutExpired:
            row = {"check": "timeout"}
        except (OSError, ValueError) as e:
            row = {"check": "no line: %s" % e}
    row.update(peer=name, workload=workload, threads=threads, whole_s=round(time.time() - start, 3),
               load_average=os.getloadavg()[0])
    return row


def measure(args, contestants):
    programs = {p: [os.path.join(HERE, "build", PROGRAM.get(p, p)), *WORDS.get(p, [])] for p in PEERS}
    programs = {p: words for p, words in programs.items() if os.access(words[0], os.X_OK)}
    if args.peers:
        programs = {p: words for p, words in programs.items() if p in args.peers.split(",")}
    programs.update(contestants)
    shapes = [(n, w, t) for n in numbers(args.records) for w in args.workloads.split(",")
              for t in (numbers(args.threads or THREADS[w]) if w in THREADS else [1])]
    rows, left_out, first = [], set(), 0
    if args.append and os.path.exists(args.out):
        first = 1 + max([json.loads(line)["round"] for line in open(args.out)], default=-1)
    with open(args.out, "a" if args.append else "w") as out:
        for turn in range(first, first + args.rounds):
            for n, w, t in shapes:
                for name, program in programs.items():
                    if (name, n, w, t) in left_out or w not in ONLY.get(name, {w}):
                        continue
                    row = run(name, program, w, t, n, args)
                    row.update(records=n, round=turn)
                    if row["check"] != "ok" or row["whole_s"] > args.long:
                        left_out.add((name, n, w, t))
                    if row["check"] == "unsupported":
                        continue
                    rows.append(row)
                    out.write(json.dumps(row) + "\n")
                    out.flush()
                    print("round %d %d records %s x%d %-15s %-12s %12s ops/s" % (
                        turn, n, w, t, name, row["check"][:12], row.get("ops_per_s", "-")), file=sys.stderr)
    return rows


def speed(row):
    return row.get("ops_per_s") or row["ops"] / row["seconds"]


def digests_due(good):
    """Those of the reference, and where it didn't run those that most peers share."""
    due = {}
    for key in {(r["workload"], r["records"], r["seed"]) for r in good}:
        found = [(r["peer"], r["digest"]) for r in good
                 if (r["workload"], r["records"], r["seed"]) == key and r["threads"] == 1 and r["peer"] not in UNRANKED]
        if found:
            due[key] = dict(found).get(REFERENCE) or statistics.mode(d for _, d in found)
    return due


def fastest(good, to=None):
    """The speed of the fastest of each round, or of the one that is named."""
    best = {}
    for r in good:
        if r["peer"] == to if to else r["peer"] not in UNRANKED:
            k = (r["round"], r["workload"], r["threads"])
            best[k] = max(best.get(k, 0), speed(r))
    return best


def title_of(workload, threads):
    return TITLES[workload] + (", %d thread%s" % (threads, "s" * (threads > 1)) if workload in THREADS else "")


def shown(rows, records):
    """The sound runs of one size of the tables in SHOWN, and which of these ran."""
    good = [r for r in rows if r["check"] == "ok" and r["peer"] in SHOWN and r["records"] == records]
    return good, [p for p in SHOWN if any(r["peer"] == p for r in good)]


def picture_of_speeds(rows, records):
    """An SVG of one size: of each workload the speed of each table over that of the fastest in the same round."""
    good, peers = shown(rows, records)
    best = fastest(good)
    panels = []
    for shape in sorted({(r["workload"], r["threads"]) for r in good}):
        if shape[0] in TITLES and shape[1] in (1, 4):
            ratios = {p: [speed(r) / best[(r["round"], *shape)] for r in good if (r["peer"], r["workload"], r["threads"]) == (p, *shape)]
                      for p in peers}
            panels.append((title_of(*shape), {p: statistics.median(found) for p, found in ratios.items() if found}))
    says = "Speed over that of the fastest of the same round, %s records: longer is faster" % format(records, ",")
    return drawn(panels, peers, says, "%.2f")


def picture_of_bytes(rows, records):
    """An SVG of one size: by how many bytes a record each table has made its process grow in W1."""
    good, peers = shown(rows, records)
    grown = {p: [r["rss_bytes"] / r["records"] for r in good if (r["peer"], r["workload"]) == (p, "W1")] for p in peers}
    panel = {p: statistics.median(found) for p, found in grown.items() if found}
    says = "Bytes a record of 16 + 16 bytes, %s records: shorter is smaller" % format(records, ",")
    return drawn([("Growth of the process in W1", panel)], peers, says, "%.0f")


def drawn(panels, peers, says, form):
    """Bars in SVG: of each panel, a title and a number for each table that ran, at most two panels in a row."""
    across = 2 if len(panels) > 1 else 1
    wide, bar, head, room, above = 676 // across, 15, 26, 104, 28
    tall = head + bar * len(peers) + 10
    label = '<text x="%d" y="%d" class="%s">%s</text>'
    out = [label % (4, 16, "t", says)]
    for n, (title, values) in enumerate(panels):
        x, y = (n % across) * wide, above + (n // across) * tall
        out.append(label % (x + 4, y + 16, "t", title))
        for k, peer in enumerate(peers):
            top = y + head + k * bar
            out.append(label % (x + room, top + 11, "n me" if peer in OURS else "n", SHOWN[peer]))
            if peer not in values:
                out.append(label % (x + room + 6, top + 11, "v", "not run"))
                continue
            length = values[peer] / max(values.values()) * (wide - room - 50)
            out.append('<rect x="%d" y="%d" width="%.1f" height="%d" class="%s"/>' % (x + room + 4, top + 1, length, bar - 4, "b me" if peer in OURS else "b"))
            out.append(label % (x + room + 9 + length, top + 11, "v", form % values[peer]))
    style = ("text{font:11px sans-serif;fill:#444}.t{font-weight:bold;fill:#111}.n{text-anchor:end}.me{font-weight:bold;fill:#111}"
             ".b{fill:#788ea3}.b.me{fill:#c2452d}")
    size = (across * wide, above + -(-len(panels) // across) * tall)
    means = "Bars, one for each table, in a group for each workload; those of this file are red. Medians of the rounds. " + " ".join(
        "%s: %s." % (title, ", ".join("%s %s" % (SHOWN[peer], form % values[peer]) for peer in peers if peer in OURS and peer in values))
        for title, values in panels)
    return ('<svg xmlns="http://www.w3.org/2000/svg" width="%d" height="%d" viewBox="0 0 %d %d" role="img" aria-labelledby="title desc">\n'
            '<title id="title">%s</title>\n<desc id="desc">%s</desc>\n<style>%s</style>\n'
            '<rect width="100%%" height="100%%" fill="#fff"/>\n%s\n</svg>\n' % (*size, *size, says, means, style, "\n".join(out)))


def passes_table(workload, threads, rows, names):
    """What passes of one kind beside so many threads took, and what those threads did meanwhile."""
    columns = [("passes", "passes", 1, "%.0f"), ("shortest", "pass_min_s", 1e3, "%.3f"), ("median", "pass_median_s", 1e3, "%.3f"),
               ("longest", "pass_max_s", 1e3, "%.3f"), ("Mop/s", "ops_per_s", 1e-6, "%.3f"),
               ("peak MB", "peak_bytes", 1e-6, "%.1f")]
    print("\n%s beside %d thread%s: milliseconds of a pass, medians of the rounds"
          % (PASSES[workload], threads, "s" * (threads > 1)))
    print("%-15s" % "peer" + "".join("%10s" % head for head, *_ in columns) + "%10s" % "check")
    for name in names:
        own = [r for r in rows if (r["peer"], r["workload"], r["threads"]) == (name, workload, threads)]
        good = [r for r in own if r["check"] == "ok"]
        cells = [form % (statistics.median(r[field] for r in good) * scale) if good else "-" for _, field, scale, form in columns]
        if own:
            cells.append(next((r["check"][:8] for r in own if r["check"] != "ok"), "ok"))
            print("%-15s" % name + "".join("%10s" % c for c in cells))


def lengths_table(kind, one, threads, rows, names):
    """How many of a million timed calls of one kind took how long beside what one thread more does."""
    print("\n%s of %d thread%s, by the clock: how many of a million took so long in all rounds, and the longest of a round (median)"
          % (kind, threads, "s" * (threads > 1)))
    heads = ["thousands", *list(AT_LEAST)[:4], "> 1 ms", *list(AT_LEAST)[4:], "ms"]
    print("%-15s%-11s" % ("peer", "beside") + "".join("%11s" % head for head in heads))
    for name in names:
        for workload, beside in BESIDE.items():
            good = [r for r in rows if (r["peer"], r["workload"], r["threads"], r["check"]) == (name, workload, threads, "ok")]
            timed = sum(r[kind + "_timed"] for r in good)
            if not timed:
                continue
            counts = [sum(sum(r[kind + "_by_length"][first:]) for r in good) for first in AT_LEAST.values()]
            counts.insert(4, sum(r[kind + "_over_1ms"] for r in good))
            cells = ["%.0f" % (timed / 1e3), *("%.2f" % (count / timed * 1e6) for count in counts),
                     "%.3f" % (statistics.median(r["longest_%s_ns" % one] for r in good) / 1e6)]
            print("%-15s%-11s" % (name, beside) + "".join("%11s" % cell for cell in cells))


def tables(rows, to):
    """Those of each size."""
    for n in sorted({r["records"] for r in rows}):
        print("\n==== %s records ====" % format(n, ","))
        table([r for r in rows if r["records"] == n], to)


def table(rows, to):
    """All rows are of one size."""
    names = [p for p in PEERS if any(r["peer"] == p for r in rows)]
    names += sorted({r["peer"] for r in rows} - set(names))
    for workload, threads in sorted({(r["workload"], r["threads"]) for r in rows if r["workload"] in PASSES}):
        passes_table(workload, threads, rows, names)
    timed = [r for r in rows if "writes_by_length" in r]
    for threads in sorted({r["threads"] for r in timed}):
        lengths_table("writes", "write", threads, timed, names)
        lengths_table("searches", "search", threads, timed, names)
    rows = [r for r in rows if r["workload"] not in BESIDE]
    if not rows:
        return
    good = [r for r in rows if r["check"] == "ok"]
    names = [p for p in names if any(r["peer"] == p for r in rows)]
    shapes = sorted({(r["workload"], r["threads"]) for r in good}, key=lambda s: (int(s[0][1:]), s[1]))
    best = fastest(good, to)
    due = digests_due(good)

    def picked(name, shape):
        return [r for r in good if (r["peer"], r["workload"], r["threads"]) == (name, *shape)]

    def show(title, cell, tail):
        print("\n" + title)
        heads = ["%s x%d" % s if s[0] in THREADS else s[0] for s in shapes] + [t for t, _ in tail]
        print("%-15s" % "peer" + "".join("%9s" % h for h in heads))
        for name in names:
            cells = [cell(picked(name, s)) for s in shapes] + [f(name) for _, f in tail]
            print("%-15s" % name + "".join("%9s" % c for c in cells))

    def median(values, form):
        return form % statistics.median(values) if values else "-"

    def per_record(field, workload):
        return lambda name: median([r[field] / r["records"] for r in picked(name, (workload, 1)) if r.get(field)],
                                   "%.0f")

    def checked(name):
        for r in rows:
            if r["peer"] != name or r["check"] == "unsupported":
                continue
            want = due.get((r["workload"], r.get("records"), r.get("seed")))
            if r["check"] != "ok":
                return r["check"][:8]
            if r["threads"] == 1 and want and r.get("digest") != want:
                return "DIGEST"
        return "ok"

    show("Million operations a second (median of the rounds)",
         lambda rs: median([speed(r) / 1e6 for r in rs], "%.2f"),
         [("B/record", per_record("rss_bytes", "W1")), ("file B/r", per_record("file_bytes", "W5")),
          ("check", checked)])
    show("Relative to %s of the same round (median; 'null' isn't ranked)" % (to or "the fastest"),
         lambda rs: median([speed(r) / best[(r["round"], r["workload"], r["threads"])] for r in rs
                            if (r["round"], r["workload"], r["threads"]) in best], "%.3f"), [])
    if any("cpu_s" in r for r in good):
        show("Processor time of all threads, nanoseconds an operation (median)",
             lambda rs: median([r["cpu_s"] / r["ops"] * 1e9 for r in rs if "cpu_s" in r], "%.0f"), [])
    if len({r["round"] for r in good}) > 1:
        show("Rounds measured, and the fastest of them over the slowest",
             lambda rs: "%d: %.2f" % (len(rs), max(map(speed, rs)) / min(map(speed, rs))) if rs else "-", [])
    files = [n for n in names if picked(n, ("W5", 1))]
    if files:
        print("\nW5 in seconds (median)\n%-15s%9s%9s" % ("peer", "write", "read"))
        for n in files:
            rs = picked(n, ("W5", 1))
            print("%-15s%9s%9s" % (n, median([r["write_s"] for r in rs], "%.2f"),
                                   median([r["read_s"] for r in rs], "%.2f")))
    images = [n for n in names if picked(n, ("W10", 1))]
    if images:
        print("\nW10, nanoseconds of processor time a look-up (median)\n%-15s%9s%9s%9s" % ("peer", "found", "absent", "B/record"))
        for n in images:
            rs = picked(n, ("W10", 1))
            print("%-15s" % n + "".join("%9s" % median([r[half] / (r["ops"] / 2) * 1e9 for r in rs], "%.0f")
                                        for half in ("found_cpu_s", "absent_cpu_s")) + "%9s" % per_record("file_bytes", "W10")(n))


def main():
    a = argparse.ArgumentParser(description=__doc__, formatter_class=argparse.RawDescriptionHelpFormatter)
    a.add_argument("--contestant", action="append", default=[], metavar="NAME=PROGRAM",
                   help="one more program, with words of its own behind it if need be: 'lh_lent16=/path/lh_bench --lent --shards 16'")
    a.add_argument("--peers", default="", help="only these, with commas between them")
    a.add_argument("--workloads", default="W1,W2,W3,W4,W5,W7,W8,W9,W10,W11,W12,W13,W14")
    a.add_argument("--threads", help="of W3, W4, W7 to W9 and W11 to W14; 1,2,4, 1,4 or 1,3 if nothing is said")
    a.add_argument("--records", default="3000,10000,1000000", help="the sizes, of which 3000 and 10000 lie in caches")
    a.add_argument("--seed", type=int, default=1)
    a.add_argument("--rounds", type=int, default=3)
    a.add_argument("--quick", action="store_true", help="3,000, 10,000 and 100,000 records, one round")
    a.add_argument("--long", type=float, default=30, help="a run that takes more seconds than this isn't repeated")
    a.add_argument("--limit", type=float, default=120, help="a run is given up after so many seconds")
    a.add_argument("--dir", default=os.environ.get("BENCH_DIR", "/dev/shm"))
    a.add_argument("--out", default=os.path.join(HERE, "results", "results.jsonl"))
    a.add_argument("--append", action="store_true", help="keep the lines in the file and go on with their rounds")
    a.add_argument("--to", metavar="PEER", help="ratios to this peer, in place of the fastest")
    a.add_argument("--show", nargs="+", metavar="FILE", help="only print the table of these result files")
    a.add_argument("--svg", metavar="FILE", help="draw the ratios to the fastest, too, of the greatest size or of --size")
    a.add_argument("--svg-bytes", metavar="FILE", help="draw the bytes a record, too")
    a.add_argument("--size", type=int, help="the size that is drawn")
    args = a.parse_args()
    if args.show:
        rows = [json.loads(line) for f in args.show for line in open(f)]
        rows = [r for r in rows if not args.peers or r["peer"] in args.peers.split(",")]
    else:
        os.makedirs(os.path.dirname(args.out), exist_ok=True)
        if args.quick:
            args.records, args.rounds = "3000,10000,100000", 1
        contestants = {}
        for c in args.contestant:
            name, _, program = c.partition("=") if "=" in c else ("", "", c)
            path, *words = shlex.split(program)
            contestants[name or os.path.basename(path)] = [os.path.abspath(path), *words]
        rows = measure(args, contestants)
    tables(rows, args.to)
    size = args.size or max((r["records"] for r in rows), default=0)
    for path, picture in [(args.svg, picture_of_speeds), (args.svg_bytes, picture_of_bytes)]:
        if path:
            with open(path, "w") as f:
                f.write(picture(rows, size))
    return 0 if all(r["check"] in ("ok", "unsupported") for r in rows) else 1


sys.exit(main())
