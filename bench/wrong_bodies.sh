#!/usr/bin/env bash
# Tries the wrong bodies of wrong-bodies/: the check must refuse each. They are edits in the form of must-fail/ that
# the gate does not try.
#     bench/wrong_bodies.sh [CRATE..]     those of these crates, or of all
# It works on a copy of the crates as they stand, in a folder of its own that it removes. The status is 0 where all
# were refused, 1 where one was not, was bad or was not tried, and 2 where no such crate is there.
set -u
root=$(cd "$(dirname "$0")/.." && pwd)
cd "$root" || exit 2
crates=("$@")
[ $# -gt 0 ] || crates=($(ls wrong-bodies))
for crate in "${crates[@]}"; do
    if ! ls "wrong-bodies/$crate/"*.edit >/dev/null 2>&1; then
        echo "wrong_bodies.sh: wrong-bodies/$crate has no edits" >&2
        exit 2
    fi
done
room=$(mktemp -d) || exit 2
trap 'rm -rf "$room"' EXIT
trap 'exit 2' INT TERM
tar --no-wildcards-match-slash -cf - --exclude='crates/*/out' --exclude='crates/*/must-fail' crates crates.txt HANDLES | tar -xf - -C "$room" || exit 2
wanted=0
for crate in "${crates[@]}"; do
    mkdir "$room/crates/$crate/must-fail"
    cp "wrong-bodies/$crate/"*.edit "$room/crates/$crate/must-fail/"
    wanted=$((wanted + $(ls "$room/crates/$crate/must-fail" | wc -l)))
done
(cd "$room" && rt must-fail "${crates[@]}") 2>&1 | tee "$room/log"
status=${PIPESTATUS[0]}
refused=$(grep -c ': refused, as it must be' "$room/log")
echo
grep -E ': (NOT REFUSED|BAD EDIT|NOT TRIED)' "$room/log"
echo "$refused of $wanted refused"
[ "$status" -eq 0 ] && [ "$refused" -eq "$wanted" ]
