#!/bin/sh
# Reads programs of the greatest length with sig_lex, and prints their tokens and the time. It works
# in a folder of its own and leaves nothing here. Needs rt.
set -eu
here=$(cd "$(dirname "$0")" && pwd)
work=$(mktemp -d)
trap 'rm -rf "$work"' EXIT
for crate in sig_lists sig_base sig_lex; do
    for part in src specs proofs; do
        mkdir -p "$work/crates/$crate"
        if [ -d "$here/../crates/$crate/$part" ]; then
            cp -r "$here/../crates/$crate/$part" "$work/crates/$crate/$part"
        fi
    done
done
mkdir -p "$work/crates/lex_bench/src"
cp "$here/tokens/program.txt" "$work/crates/lex_bench/src/main.rt"
printf 'sig_lists:\nsig_base:\nsig_lex: sig_lists sig_base memchr thiserror\nlex_bench: sig_base sig_lex anyhow\n' >"$work/crates.txt"
cd "$work/crates/lex_bench"
rt run >"$work/log" 2>&1 || { tail -n 20 "$work/log"; exit 1; }
./out/lex_bench
