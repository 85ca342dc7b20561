#!/bin/sh
# Whether the net of a sealed file may run the gate, asked of the proved program:
#
#     may_run.sh crates/judge/out/judge FILE
#
# Ends with 0 if it may, and prints nothing. The program has no exit status of its
# own but 0, so three things are asked for: status 0 (a signal gives another, and so
# does the shell where there is no FILE), nothing on standard error, the first word.
error=$(mktemp) || exit 3
trap 'rm -f "$error"' EXIT
line=$("$1" < "$2" 2> "$error") && test ! -s "$error" && test "${line%% *}" = accepted
