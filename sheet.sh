#!/bin/sh
# The sheet of drawings, one row a packet: ./sheet.sh [FOLDER..]; files are fine too. Without a folder it makes three drawings of a steel
# frame first, with Debian's encoder. What is missing of Debian's packages is installed; Rattle's kit (`rt`) must be there.
set -eu
root=$(cd "$(dirname "$0")" && pwd)
. "$root/tools/need.sh"

# A frame of WIDTH x HEIGHT: columns and beams as double lines, bracing in every second bay, a border.
frame() {
    awk -v w="$1" -v h="$2" 'BEGIN {
        print "P2"; print w, h; print 255
        bay = int(w / 6); storey = int(h / 5)
        for (y = 0; y < h; y++) for (x = 0; x < w; x++) {
            u = x % bay; v = y % storey
            column = (u < 2 || (u > 5 && u < 8)); beam = (v < 2 || (v > 7 && v < 10))
            d = u * storey - v * bay; if (d < 0) d = -d
            brace = (int(x / bay) % 2 == 1 && d < 2 * bay)
            border = (x < 3 || y < 3 || x > w - 4 || y > h - 4)
            print (column || beam || brace || border) ? 0 : 255
        }
    }'
}

if [ $# = 0 ]; then
    need libopenjp2-tools command -v opj_compress
    cd "$root"
    folder=rust/target/drawings
    mkdir -p "$folder"
    frame 900 640 > "$folder/frame.pgm"
    opj_compress -i "$folder/frame.pgm" -o "$folder/layers.jp2" -r 40,10,1 -n 5 -SOP -EPH > /dev/null
    opj_compress -i "$folder/frame.pgm" -o "$folder/tiles.j2k" -r 20,1 -t 300,320 -p RPCL -c '[128,128]' > /dev/null
    opj_compress -i "$folder/frame.pgm" -o "$folder/lossy.j2k" -q 30,45 -I -p CPRL -b 32,32 > /dev/null
    set -- "$folder"
fi
need_cargo
(cd "$root/rust" && cargo build --offline --quiet --release -p tonkelvi-cli) >&2
exec "$root/rust/target/release/tonkelvi" sheet "$@"
