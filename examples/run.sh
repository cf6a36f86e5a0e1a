#!/usr/bin/env bash
# Replays a session and shows what each of its lines did and what its reports hold.
#
#   examples/run.sh [SESSION]
#
# SESSION is a file, or the name of a session of this folder: first (one spawn, what is played without a name), arena
# (two spawners, three scenes, a server and two clients), late_joiner, or health (values that change).
# It runs the program that GODOT_MP_CLI names, else the proved one where it stands, else one that `rt try` makes.
set -u
here=$(cd "$(dirname "$0")" && pwd)
crate=$here/../crates/godot_mp_cli
program=${GODOT_MP_CLI:-$crate/out/godot_mp_cli}
session=${1:-first}
if [ ! -f "$session" ] && [ -f "$here/$session.session" ]; then
    session=$here/$session.session
fi
session=$(realpath -e -- "$session") || exit 2
if [ -x "$program" ]; then
    exec "$program" replay < "$session"
fi
echo "no proved program stands yet ('rt ci' makes it): building an unproved one, which takes one to two minutes and is done at each run" >&2
errors=$(mktemp)
trap 'rm -f "$errors"' EXIT
(cd "$crate" && rt try -- replay) < "$session" 2> "$errors"
status=$?
# rt's own last lines are no part of what the program writes.
grep -av -e '^checked: ' -e '^run=' "$errors" >&2
exit "$status"
