#!/usr/bin/env bash
# Compares the speed of the library with nom 7 and hand-written loops, and prints a table in Markdown.
# A second table has their instructions and allocations (`counts.py`).
#
#     bench/run.sh [TURNS] [WORDS IN A WORKLOAD'S NAME]
#     bench/run.sh counts [WORDS IN A WORKLOAD'S NAME]
#     bench/run.sh counts --write
#     bench/run.sh check [WORDS IN A WORKLOAD'S NAME]
#
# `counts` prints only the second table, which other load on the machine does not affect. With
# `--write` it writes the library's instructions in each workload to counts.txt instead. `check`
# compares with counts.txt, and fails if a workload takes over 5 % more instructions; it prints the
# name and both numbers.
#
# It installs the Debian packages of nom 7, memchr and valgrind if they are missing, and cargo if
# there is none. It copies the library and the workloads (`timed/`) into a folder, reuses the proofs
# of `rt ci` on this machine if the kit keeps them, and proves and builds the rest there. Then it
# builds and runs the program here, offline.
#
# BENCH_CPU is the target processor of both: x86-64-v2 (Rattle's default) or x86-64-v3. BENCH_ROOM is
# the folder, which keeps the proofs for the next run. It is outside the repository, since the gate
# rejects crates outside `crates/`.
# BENCH_UNPROVED=1 builds the library without proofs (`unproved.py`), to try a change in a minute. Its
# code is similar to that of a proved build, but may differ.
set -eu -o pipefail
cd "$(dirname "$0")"
cpu=${BENCH_CPU:-x86-64-v2}
room=${BENCH_ROOM:-${XDG_CACHE_HOME:-$HOME/.cache}/pergidau-bench}

missing=()
for package in librust-nom-dev librust-memchr-dev valgrind; do
    dpkg -s "$package" > /dev/null 2>&1 || missing+=("$package")
done
command -v cargo > /dev/null || missing+=(cargo)
if [ ${#missing[@]} -gt 0 ]; then
    apt-get update > /dev/null
    apt-get install -y --no-install-recommends "${missing[@]}" > /dev/null
fi

if [ -n "${BENCH_UNPROVED:-}" ]; then
    ./unproved.py "$room-unproved" "$cpu"
    TIMED=$room-unproved
else
    ./lay.py "$room"
    # The kept proofs are for the kit's default processor.
    [ "$cpu" != x86-64-v2 ] || ../scripts/kept.py "$room" >&2
    # Without the flag for the default processor, so that the kept proofs can be used.
    words=()
    [ "$cpu" = x86-64-v2 ] || words=(--cpu "$cpu")
    (cd "$room/crates/timed" && rt lib "${words[@]}" > /dev/null)
    TIMED=$room/crates/timed/out
fi
TIMED=$(cd "$TIMED" && pwd)
KIT_C=$(dirname "$(rt doc)")/c
export TIMED KIT_C

mkdir -p .cargo
cat > .cargo/config.toml << CONFIG
[source.crates-io]
replace-with = "debian"

[source.debian]
directory = "/usr/share/cargo/registry"

[net]
offline = true

[build]
rustflags = ["-Ctarget-cpu=$cpu"]
CONFIG
cargo build --release --offline --quiet
cargo build --release --offline --quiet --features requests --target-dir target/requests
case "${1:-}" in
    check)
        ./counts.py --check "${2:-}"
        exit
        ;;
    counts)
        if [ "${2:-}" = --write ]; then
            ./counts.py --write
        else
            ./counts.py "${2:-}" | tee target/counts.md
        fi
        exit
        ;;
esac
./target/release/bench "$@" | tee target/table.md
echo
./counts.py "${2:-}" | tee target/counts.md
