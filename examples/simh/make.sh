#!/usr/bin/env bash
# Has SIMH write the tape files of this folder anew: examples/simh/make.sh [FOLDER]
# README.md says what is in each. It takes pdp11 of Debian's package simh (make peer installs it).
set -euo pipefail
here=$(cd "$(dirname "$0")" && pwd)
. "$here/reel.sh"

[ -d "${1:-$here}" ] || { echo "make.sh: there is no folder $1; name one that is there" >&2; exit 1; }
folder=$(cd "${1:-$here}" && pwd)
command -v pdp11 >/dev/null || { echo "make.sh: pdp11 is missing; install Debian's package simh" >&2; exit 1; }
place=$(mktemp -d)
trap 'rm -rf "$place"' EXIT
cd "$place"

# A record of text: lines of 16 bytes that tell the record and the line.
text() { # number, bytes
    local line
    for ((line = 0; line < $2 / 16; line++)); do printf 'rec %02d line %03d\n' "$1" "$line"; done >"text-$1-$2"
}

# Every value of a byte, twice.
every_byte() {
    local byte
    for ((byte = 0; byte < 512; byte++)); do printf %b "\\x$(printf %02x $((byte % 256)))"; done >every-byte
}

for number in 1 2 3; do
    text "$number" 512
    text "$number" 1024
done
every_byte
head -c 81 text-2-512 >odd

write_reel blocks-512.tap text-1-512 text-2-512 mark every-byte mark mark
write_reel blocks-1024.tap mark text-1-1024 mark text-2-1024 text-3-1024
write_reel marks.tap mark mark
write_reel odd.tap text-1-512 mark odd text-3-512
write_reel mixed.tap text-1-512 text-2-1024
write_reel overwritten.tap text-1-512 text-2-512 rewind mark mark

for reel in *.tap; do
    cp "$reel" "$folder/$reel"
    echo "wrote $reel: $(stat -c %s "$reel") bytes"
done
