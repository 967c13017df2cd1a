#!/bin/sh
# Builds the constraints of eight queens and a parity of 64 variables with sig_dd, and with BuDDy
# (Debian's libbdd-dev) where that is installed, and prints nodes and times; and with sig_dd alone
# many small guards on one growing store, as a clock solver makes them. It works in a folder of its
# own and leaves nothing here. Needs rt, and for BuDDy a C compiler.
set -eu
here=$(cd "$(dirname "$0")" && pwd)
work=$(mktemp -d)
trap 'rm -rf "$work"' EXIT
mkdir -p "$work/crates/dd_bench/src"
mkdir -p "$work/crates/sig_dd" "$work/crates/sig_lists"
for part in sig_dd/src sig_dd/specs sig_dd/proofs sig_lists/src sig_lists/proofs; do
    cp -r "$here/../crates/$part" "$work/crates/$part"
done
printf 'sig_lists:\nsig_dd: sig_lists indexmap lru thiserror\ndd_bench: sig_dd anyhow\n' >"$work/crates.txt"
cp "$here/diagrams/program.txt" "$work/crates/dd_bench/src/main.rt"
for name in rules row_has_one queens parity path; do
    mkdir -p "$work/crates/dd_bench/proofs/$name"
    cp "$here/diagrams/$name.invariants.txt" "$work/crates/dd_bench/proofs/$name/Invariants.antt"
done
cd "$work/crates/dd_bench"
rt run >"$work/log" 2>&1 || { tail -n 20 "$work/log"; exit 1; }
echo 'sig_dd (all nodes made, in five turns):'
/usr/bin/time -f '%M KB at most' ./out/dd_bench >"$work/own"
cat "$work/own"
if [ -e /usr/include/bdd.h ]; then
    cc -O2 -o "$work/buddy" "$here/diagrams/buddy.c" -lbdd -lm
    echo 'BuDDy:'
    /usr/bin/time -f '%M KB at most' "$work/buddy" >"$work/other"
    cat "$work/other"
    for name in 'queens 8' 'parity 64'; do
        awk -v name="$name:" '
            index($0, name) == 1 {
                for (i = 1; i < NF; i++) if ($(i + 1) ~ /^us/) break
                if (!(FILENAME in best) || $i + 0 < best[FILENAME]) best[FILENAME] = $i + 0
            }
            END { printf "%s ratio of least times: %.2f\n", name, best[ARGV[1]] / best[ARGV[2]] }
        ' "$work/own" "$work/other"
    done
fi
