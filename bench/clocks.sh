#!/bin/sh
# Prints how many nodes the clocks of programs need (a watchdog, chains of samplings, the
# generated programs of 1 to 12 stages), and all diagrams of their plans, with the time. It works in a
# folder of its own and leaves nothing here. Needs rt.
set -eu
here=$(cd "$(dirname "$0")" && pwd)
work=$(mktemp -d)
trap 'rm -rf "$work"' EXIT
crates='sig_lists sig_base sig_text sig_lex sig_tree sig_kernel sig_dd sig_clock sig_rel sig_solve sig_plan sig_model sig_meaning_laws sig_graph sig_part sig_code sig_back sig_parse sig_scope sig_kinds sig_recursion sig_type sig_call sig_flat sig_front sig_load'
for crate in $crates; do
    mkdir -p "$work/crates/$crate"
    for part in src specs proofs; do
        if [ -d "$here/../crates/$crate/$part" ]; then
            cp -r "$here/../crates/$crate/$part" "$work/crates/$crate/$part"
        fi
    done
    grep "^$crate[: ]" "$here/../crates.txt" >>"$work/crates.txt"
done
printf 'clock_bench: sig_base sig_back sig_clock sig_dd sig_front sig_kernel sig_load sig_plan sig_solve anyhow\n' >>"$work/crates.txt"
mkdir -p "$work/crates/clock_bench/src"
cp "$here/clocks/program.txt" "$work/crates/clock_bench/src/main.rt"
git init -q "$work"
cd "$work/crates/clock_bench"
rt run >"$work/log" 2>&1 || { tail -n 20 "$work/log"; exit 1; }
./out/clock_bench
