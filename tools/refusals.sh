#!/bin/sh
# refusals.sh LOG: whether each must-fail edit that `rt ci` tells of in this log was refused at a fact. `rt ci` itself passes edits that
# can't be applied, compiled or read, and those that are refused only because a proof names something that the edit took away.
set -eu
log=$1
status=0
if ! grep -q '^rt: ok;' "$log"; then
    echo "rt ci has no line 'rt: ok'" >&2
    status=1
elif grep -qE '^rt: ok;.* must-fail edits: [^;]*, [0-9]+ bad' "$log"; then
    grep -E '^rt: .*: BAD EDIT: ' "$log" | sed 's/^rt: //' >&2
    status=1
fi
if grep -qF 'only because a proof file names what the edit took away' "$log"; then
    grep -F 'only because a proof file names what the edit took away' "$log" | sed 's/^rt: must-fail \([^ ]*\): .*/refused for a name alone: \1/' >&2
    status=1
fi
exit $status
