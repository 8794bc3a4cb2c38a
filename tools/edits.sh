#!/bin/sh
# Whether each must-fail edit fits its crate: every old text stands once in its file. `rt ci` tells of the others too, but only when all
# crates are proved. Names those that don't fit, and gives 1 if there are any.
set -eu
cd "$(dirname "$0")/.."
bad=0
for edit in crates/*/must-fail/*.edit; do
    awk -v crate="${edit%/must-fail/*}" -v edit="$edit" '
        function fail(why) { print edit ": " why > "/dev/stderr"; failed = 1; exit 1 }
        function load(name,    line, got) {
            if (name in texts) return
            texts[name] = ""
            while ((got = (getline line < (crate "/" name))) > 0) texts[name] = texts[name] line "\n"
            if (got < 0) fail("there is no " name)
        }
        /^file: / { file = substr($0, 7); load(file) }
        /^old: / { old = substr($0, 6) }
        /^new:/ {
            new = substr($0, 5)
            sub(/^ /, "", new)
            at = old == "" ? 0 : index(texts[file], old)
            if (!at) fail("an old text is not in " file)
            rest = substr(texts[file], at + length(old))
            if (index(rest, old)) fail("an old text is more than once in " file)
            texts[file] = substr(texts[file], 1, at - 1) new rest
            old = ""
            pairs++
        }
        END { if (!failed && !pairs) fail("it replaces nothing") }
    ' "$edit" || bad=1
done
exit $bad
