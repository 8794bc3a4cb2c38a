#!/bin/sh
# The static library, crates/tonkelvi/out/libtonkelvi.a. `rt lib` alone proves the crates below it one after another; `rt all check` proves
# several at a time, and what is proved is not proved again.
set -eu
cd "$(dirname "$0")/.."
rt all check --jobs "${RT_JOBS:-$(nproc)}"
cd crates/tonkelvi
rt lib
