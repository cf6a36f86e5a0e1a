#!/usr/bin/env bash
# Tries wrong bodies that the gate leaves out: each edit of edits/NAME/ on a copy of the repository, where the check must refuse it.
#
#   edits/run.sh              those of every crate
#   edits/run.sh NAME ..      those of these crates, as after their contracts changed
#
# An edit is written as one of crates/NAME/must-fail/. The last line is 'N passed, M failed'.
set -u
top=$(cd "$(dirname "$0")/.." && pwd)
copy=$(mktemp -d)
trap 'rm -rf "$copy"' EXIT
[ $# -gt 0 ] || set -- $(cd "$top/edits" && ls -d */ | tr -d /)
mkdir "$copy/crates"
cp "$top/crates.txt" "$copy/"
[ ! -e "$top/HANDLES" ] || cp "$top/HANDLES" "$copy/"
(cd "$top/crates" && find . -name out -prune -o -type f -print0 | tar --null -cf - -T -) | tar -C "$copy/crates" -xf -
git -C "$copy" init -q
rm -rf "$copy"/crates/*/must-fail
passed=0
failed=0
for name in "$@"; do
    cp -r "$top/edits/$name" "$copy/crates/$name/must-fail"
    log=$(cd "$copy" && rt must-fail "$name" 2>&1)
    status=$?
    all=$(ls "$copy/crates/$name/must-fail" | wc -l)
    bad=$(printf '%s\n' "$log" | grep -cE '(NOT REFUSED|BAD EDIT|NOT TRIED)')
    if [ "$status" -ne 0 ]; then
        printf '%s\n' "$log" | tail -n 20
        [ "$bad" -gt 0 ] || bad=$all
    fi
    printf '%s: %s edits, %s not refused\n' "$name" "$all" "$bad"
    passed=$((passed + all - bad))
    failed=$((failed + bad))
done
printf '%s passed, %s failed\n' "$passed" "$failed"
[ "$failed" -eq 0 ]
