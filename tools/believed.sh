#!/bin/sh
# What must be believed, with its lines counted: the rows of the table in docs/PROOFS.md. With --write: puts them there. With --check:
# whether that paper has these rows.
set -eu
cd "$(dirname "$0")/.."

row() {
    what=$1
    where=$2
    shift 2
    echo "| $what | $where | $(cat "$@" | wc -l | tr -d ' ') |"
}

rows() {
    specs=crates/t800/specs
    row "the definitions" "t800/specs/, but for those below" \
        $specs/Base.antt $specs/Refusals.antt $specs/RefusalNumbers.antt $specs/Bits.antt $specs/TagTree.antt $specs/PassCount.antt \
        $specs/Segments.antt $specs/State.antt $specs/Ranges.antt $specs/Start.antt $specs/Reports.antt $specs/WriteHeader.antt \
        $specs/ReadHeader.antt $specs/MarkerSegments.antt $specs/Packet.antt $specs/Layer.antt $specs/PackedHeaders.antt \
        $specs/Gathered.antt $specs/Book.antt
    row "what the exported calls add to them" "t800/specs/Exports.antt" $specs/Exports.antt
    row "the structs and names that definitions and code share" "t800/src/lib.rt" crates/t800/src/lib.rt
    row "the contracts of the calls" "src/lib.rt of t2_start, t2_measure, t2_write, t2_write_layer, t2_read_packet, t2_read_gathered, t2_gather, t2_spread and tonkelvi; their code is proved" \
        crates/t2_start/src/lib.rt crates/t2_measure/src/lib.rt crates/t2_write/src/lib.rt crates/t2_write_layer/src/lib.rt \
        crates/t2_read_packet/src/lib.rt crates/t2_read_gathered/src/lib.rt crates/t2_gather/src/lib.rt crates/t2_spread/src/lib.rt \
        crates/tonkelvi/src/lib.rt
    row "the statements of demands 1 and 3" "t800/specs/Interface.antt, Numbers.antt, RoundTrip.antt" \
        $specs/Interface.antt $specs/Numbers.antt $specs/RoundTrip.antt
    row "the statement of the starts" "t800/specs/Starts.antt" $specs/Starts.antt
    row "the statement of fewer layers" "t800/specs/FewerLayers.antt" $specs/FewerLayers.antt
    row "the statements of packets without passes" "empty_packets/specs/WithoutPasses.antt, LaterPackets.antt" \
        crates/empty_packets/specs/WithoutPasses.antt crates/empty_packets/specs/LaterPackets.antt
    row "the statements of bits past the input's end" "past_end/specs/PastEnd.antt, and bits_taken/specs/Taken.antt for bits taken one after another" \
        crates/past_end/specs/PastEnd.antt crates/bits_taken/specs/Taken.antt
    row "the statements of whole layers" "whole_layer/specs/SingleCalls.antt, and Several.antt for demand 3 of several precincts" \
        crates/whole_layer/specs/SingleCalls.antt crates/whole_layer/specs/Several.antt
    row "the statements of headers gathered in front" "gathered_headers/specs/Gathered.antt" crates/gathered_headers/specs/Gathered.antt
    row "the statement of the walk down" "tgt/specs/Walk.antt, and Path.antt for what contracts call a path" \
        crates/tgt/specs/Walk.antt crates/tgt/specs/Path.antt
    row "what the calls and the exported calls are as interfaces" "theorems/specs/; the records \`exports\` and \`layer_exports\` of theorems/proofs/Exports.antt put it together" \
        crates/theorems/specs/Calls.antt crates/theorems/specs/Exports.antt crates/theorems/specs/Gathered.antt
    row "one layer of one precinct" "t2_layer/specs/" crates/t2_layer/specs/Layer.antt
    row "the declarations for C and Rust" "include/tonkelvi.h, rust/tonkelvi/src/words.rs; the tests call through both" \
        include/tonkelvi.h rust/tonkelvi/src/words.rs
}

case "${1:-}" in
    --check) ;;
    --write)
        new=$(mktemp)
        # The table's rows are the lines from the one under its head to the first that is none.
        rows | awk 'NR == FNR { rows = rows $0 "\n"; next }
            inside && /^\|/ { next }
            { inside = 0; print }
            /^\| what \| where \| lines, with comments \|$/ { head = NR }
            head && NR == head + 1 { printf "%s", rows; inside = 1; head = 0 }' - docs/PROOFS.md > "$new"
        cat "$new" > docs/PROOFS.md
        rm "$new"
        exit
        ;;
    *)
        rows
        exit
        ;;
esac
rows | while IFS= read -r line; do
    grep -qxF -- "$line" docs/PROOFS.md || { echo "docs/PROOFS.md lacks this row (tools/believed.sh --write): $line" >&2; exit 1; }
done
# Each module of the definitions is in one of the rows.
for file in crates/t800/specs/*.antt crates/tgt/specs/*.antt crates/theorems/specs/*.antt crates/t2_layer/specs/*.antt \
    crates/empty_packets/specs/*.antt crates/past_end/specs/*.antt crates/bits_taken/specs/*.antt crates/whole_layer/specs/*.antt \
    crates/gathered_headers/specs/*.antt; do
    name=$(basename "$file")
    [ "$name" = Lib.antt ] || grep -q "/$name" tools/believed.sh || { echo "$file is in no row of tools/believed.sh" >&2; exit 1; }
done
