#!/bin/bash
# Builds lh_bench and every peer that this machine offers, runs all in turns, and prints the tables.
#
#   ./run_all.sh                                   3,000, 10,000 and 1,000,000 records, three rounds (well over an hour)
#   ./run_all.sh --quick                           3,000, 10,000 and 100,000 records, one round (some ten minutes)
#   ./run_all.sh --peers lh_bench,tbb,dashmap --workloads W1,W2 --rounds 5
#   ./run_all.sh --contestant before=/path/to/lh_bench      one more program
#
# All words go to bench.py (bench.py --help). INSTALL=1 first installs the peers by apt-get, as root, on Debian 12.
# BENCH_DIR is where the programs keep their files: /dev/shm if nothing is said, so that no disk is measured.
set -u
cd "$(dirname "$0")"

PACKAGES="g++ make pkg-config python3 libtbb-dev liburcu-dev libcuckoo-dev libabsl-dev libdb5.3-dev \
  libkyotocabinet-dev libtokyocabinet-dev libgdbm-dev liblmdb-dev libcdb-dev libtdb-dev librust-dashmap-dev"
if [ -n "${INSTALL:-}" ]; then
  command -v cargo >/dev/null || PACKAGES="$PACKAGES cargo rustc"
  apt-get update -qq
  for package in $PACKAGES; do
    dpkg -s "$package" >/dev/null 2>&1 || apt-get install -y -qq --no-install-recommends "$package" >/dev/null 2>&1 ||
      echo "not to be had: $package" >&2
  done
fi

if command -v rt >/dev/null; then
  ../scripts/build lh_bench || echo "lh_bench was not built" >&2
elif [ ! -x ../crates/lh_bench/out/lh_bench ]; then
  echo "lh_bench is left out: the toolchain's command rt is not on the PATH" >&2
fi
make -k -j2 >build.log 2>&1 || echo "some peers were not built; see bench/build.log" >&2

mkdir -p results
{
  date -u +%FT%TZ
  uname -sr
  lscpu | grep -E '^(Model name|CPU\(s\)|L2|L3)'
  g++ --version | head -1
  cargo --version 2>/dev/null
  rt version 2>/dev/null
  dpkg-query -W -f '${Package} ${Version}\n' $PACKAGES 2>/dev/null
} >results/machine.txt
exec python3 bench.py "$@"
