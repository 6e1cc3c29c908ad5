#!/bin/bash
# Says which functions take what share of the processor time of a workload, by samples of perf (Debian: linux-perf),
# and which instructions of the first two take most.
#
#   ./samples.sh W2 ../crates/lh_bench/out/lh_bench --room 32
#
# The workload runs in one thread, RUNS times (40 if nothing is said) with RECORDS records (3000: in cache). What is
# compiled into a caller counts as the caller's. Loading is sampled too, which is little of W2 at 3,000 records.
set -eu
workload=$1
program=$(realpath "$2")
shift 2
folder=$(mktemp -d /dev/shm/samples-XXXX)
trap 'rm -rf "$folder"' EXIT
cd "$folder"

words="--workload $workload --records ${RECORDS:-3000} $*"
perf record -q -e cpu-clock -F 4000 -o data -- bash -c \
  "for run in \$(seq ${RUNS:-40}); do $program $words >/dev/null; done" 2>/dev/null

echo "== $workload $*: share of the samples by function"
perf report -i data --stdio -q --no-children --comm "$(basename "$program" | cut -c1-15)" --percent-limit 0.5 \
  --fields overhead,sym 2>/dev/null | sed -e '/^$/d' -e 's/::<#[0-9a-f]*>//' -e 's/[ -]*$//'

perf annotate -i data --stdio -q --no-source 2>/dev/null >code || true
echo "== instructions above 1 % of their function, in the first two functions"
awk '/Percent.*Disassembly/ { n++; if (n > 2) exit; print } n && $1 + 0 >= 1.0 { print }' code | cut -c1-150
