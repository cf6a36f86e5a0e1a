#!/usr/bin/env bash
# Runs the cases of this folder against the programs, and compares what they write and how they end.
#
#   conformance/run.sh [CASE ..]             the proved programs, as `rt ci` or `rt run` left them
#   conformance/run.sh --quick [CASE ..]     the same, without the few cases that take long
#   conformance/run.sh --unproved [CASE ..]  the programs that `rt try` makes, with no proof
#
# A CASE is a folder, a table, or a case: replay, replay/values, replay/one-spawn, replay/values.tsv:12.
# CASE_SECONDS is the time that a case has (60). The last line is 'N passed, M failed'.
exec python3 "$(dirname "$0")/run.py" "$@"
