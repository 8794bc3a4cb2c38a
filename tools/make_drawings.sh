#!/bin/sh
# Makes the small drawings in rust/tonkelvi-cli/tests/drawings, or in the folder given, with three encoders:
# opj_compress (OpenJPEG 2.5), grk_compress (Grok 10) and ffmpeg (5.1). An encoder that is not installed is passed over.
set -eu
out=${1:-$(dirname "$0")/../rust/tonkelvi-cli/tests/drawings}
mkdir -p "$out"
work=$(mktemp -d)
trap 'rm -r "$work"' EXIT

# A drawing of 61 x 47 with lines, a ramp and some noise.
awk 'BEGIN {
    srand(7); print "P3\n61 47\n255"
    for (y = 0; y < 47; y++) for (x = 0; x < 61; x++) {
        ink = (x % 9 == 0 || (x + y) % 13 == 0) ? 0 : 255
        print ink, int(x * 255 / 61), int((y * 5 + 9 * rand()) % 256)
    }
}' > "$work/text.ppm"
awk 'NR <= 3 {print; next} {for (i = 1; i <= NF; i++) print $i}' "$work/text.ppm" > "$work/list.ppm"
{
    printf 'P6\n61 47\n255\n'
    tail -n +4 "$work/list.ppm" | awk '{printf "\\%03o\n", $1}' | while read -r byte; do printf "$byte"; done
} > "$work/drawing.ppm"

quiet() { "$@" > /dev/null 2>&1 || echo "failed: $*" >&2; }

if command -v opj_compress > /dev/null; then
    opj() { name=$1; shift; quiet opj_compress -i "$work/drawing.ppm" -o "$out/openjpeg_$name" "$@"; }
    for order in LRCP RLCP RPCL PCRL CPRL; do
        opj "$order.j2k" -r 20,8,3 -p $order -n 4 -c '[16,16],[8,16]' -b 4,8 -SOP -EPH -t 40,30
    done
    opj parts.jp2 -r 10,2 -p RPCL -n 3 -d 13,7 -t 32,25 -T 5,3 -TP R -M 63 -b 8,8
    opj lossy.jp2 -q 20,30,40 -I -s 2,1 -n 3 -TP L -b 8,32
    opj poc.j2k -r 20,5,1 -n 4 -POC T1=0,0,3,2,3,CPRL/T1=2,0,3,4,3,RLCP
    for style in 1 8 25; do opj "style$style.j2k" -r 8,2 -M $style -b 16,16; done
    opj lengths.j2k -r 20,8,3 -p PCRL -n 3 -c '[16,16]' -t 40,30 -PLT
    opj region.j2k -r 8,1 -ROI c=0,U=9
fi
if command -v grk_compress > /dev/null; then
    grk() { name=$1; shift; quiet grk_compress -H 1 -i "$work/drawing.ppm" -o "$out/grok_$name" "$@"; }
    for order in LRCP RPCL CPRL; do
        grk "$order.j2k" -r 8,4,1 -p $order -n 3 -c '[32,32],[16,32]' -b 8,8 -S -E -t 40,30
    done
    grk lossy.jp2 -q 20,30,40 -I -n 3 -u L -L
    grk high_throughput.j2k -M 64
fi
if command -v ffmpeg > /dev/null; then
    ff() { name=$1; shift; quiet ffmpeg -y -threads 1 -i "$work/drawing.ppm" -c:v jpeg2000 "$@" -f image2 "$out/ffmpeg_$name"; }
    for order in lrcp rpcl cprl; do
        ff "$order.j2k" -format j2k -prog $order -sop 1 -eph 1 -layer_rates 50,10,3 -tile_width 40 -tile_height 30
    done
    ff sampled.jp2 -format jp2 -pred 1 -pix_fmt yuv420p
fi
