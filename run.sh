#!/usr/bin/env bash
# Builds mvcc_tool where that is needed, and runs a script of commands through it: ./run.sh [SCRIPT]
# Without a SCRIPT it runs each script of examples/ and compares the answers with those beside it.
set -euo pipefail
cd "$(dirname "${BASH_SOURCE[0]}")"
program=crates/mvcc_tool/out/mvcc_tool

# how many crates are proved side by side: one for each processor, as far as each has 3 GiB of memory
side_by_side() {
    awk -v most="$(nproc)" '/^MemAvailable:/ { n = int($2 / (3 * 1024 * 1024)); if (n < 1) n = 1; print n < most ? n : most }' /proc/meminfo
}

# tells of each crate that is proved, and how many are left
progress() {
    local left=$1 line
    while IFS= read -r line; do
        case $line in
        "== summary") ;;
        "== "*) left=$((left - 1)); echo "run.sh: ${line#== } is done, $left left" >&2 ;;
        esac
    done
}

build() {
    local log jobs crates
    log=$(mktemp)
    jobs=$(side_by_side)
    crates=$(grep -c '^[a-z_]*:' crates.txt)
    echo "run.sh: $program is built from proved crates alone, so what is new of $crates crates is proved first, $jobs side by side." >&2
    echo "run.sh: from nothing that takes some twenty minutes on four processors; the next run starts at once." >&2
    rt all check --jobs "$jobs" 2>&1 | tee "$log" | progress "$crates" || { cat "$log" >&2; exit 1; }
    (cd crates/mvcc_tool && rt run -- run </dev/null) >"$log" 2>&1 || { cat "$log" >&2; exit 1; }
    rm -f "$log"
}

command -v rt >/dev/null || { echo "run.sh: the Rattle kit's command 'rt' is not on the PATH" >&2; exit 2; }
if [ ! -x "$program" ] || [ -n "$(find crates -name '*.rt' -newer "$program" -print -quit)" ]; then
    build
fi
if [ $# -gt 0 ]; then
    exec "$program" run <"$1"
fi
for example in examples/*.script; do
    "$program" run <"$example" | tee /dev/stderr | cmp - "${example%.script}.answers"
done
