#!/usr/bin/env bash
# A walk through the drive card in under a minute: glyphs on a tape and back, a list for the label printer, a READ that stops, one
# near the end of tape, a speed set, a locked door, a cut packet, a glyph redrawn in place, a marked header block, a tape for a museum's
# simulator and back, a foreign one that is refused, a lost drive, an exchange that is refused whole.
# Run by `make demo`, after the archive and the command are built. TAPECARD may name another build of the command.
set -euo pipefail
cd "$(dirname "$0")/.."

launcher=$PWD/scripts/tapecard
simh_files=$PWD/examples/simh
tapecard() { "$launcher" "$@"; }

place=$(mktemp -d)
trap 'rm -rf "$place"' EXIT
cd "$place"

heading() { printf '\n== %s\n' "$*"; }
run() {
    printf '\n$ tapecard %s\n' "$*"
    tapecard "$@"
}

# The exit status 3 says that the drive answered CHECK CONDITION.
run_to_check_condition() {
    local status=0
    run "$@" || status=$?
    [ "$status" = 3 ]
}

# Glyphs of a script as pictures of 8 by 8 dots, the same in every run.
glyphs() { # first code point, last code point, seed
    local code row column dots=$3
    for ((code = $1; code <= $2; code++)); do
        printf 'U+%04X\n' "$code"
        for ((row = 0; row < 8; row++)); do
            local line=
            for ((column = 0; column < 8; column++)); do
                dots=$(((dots * 1103515245 + 12345) % 2147483648))
                if ((dots / 65536 % 3 == 0)); then line+='#'; else line+='.'; fi
            done
            echo "$line"
        done
    done
}

# One glyph in a block of its own.
glyph_block() { # code point, seed
    glyphs "$1" "$1" "$2"
    head -c 433 /dev/zero # a picture has 79 bytes
}

heading "Two scripts' glyphs go onto a cartridge and come back"
glyphs 0x0E01 0x0E2E 1 >thai.glyphs
glyphs 0x1680 0x169C 2 >ogham.glyphs
run new scripts.img --blocks 40 --block-size 512 --early-warning 4
run put scripts.img thai.glyphs ogham.glyphs
run list scripts.img
run info scripts.img
run get scripts.img 1 -o thai.back
run get scripts.img 2 -o ogham.back
cmp thai.glyphs thai.back
cmp ogham.glyphs ogham.back
echo "both files are the same, byte for byte"

heading "The label printer is told where each script starts, by the index of filemarks, and no block is read for it"
run labels scripts.img
run labels scripts.img --csv

heading "A READ of 40 blocks stops at the first script's filemark and says how many are missing"
run_to_check_condition packet scripts.img --out blocks.bin 08 01 00 00 28 00 00 00 00 00 00 00

heading "A READ that meets the end of data past the early warning says that the end of tape is near"
run new short.img --blocks 12 --block-size 512 --early-warning 4
run put short.img thai.glyphs
printf '\n$ tapecard packet short.img --any-answer\n'
tapecard packet short.img --any-answer <<'LINES'
11 03 00 00 00 00 00 00 00 00 00 00  # SPACE to the end of data
08 01 00 00 01 00 00 00 00 00 00 00  # READ one block there
LINES

heading "A drive just switched on has speed 250, and a workstation that wants the automatic one, 0, sets it"
{ head -c 12 /dev/zero; printf '\x2A\x12'; head -c 18 /dev/zero; } >automatic.list # page 2Ah after its header, speed 0
printf '\n$ tapecard packet scripts.img --data automatic.list\n'
tapecard packet scripts.img --data automatic.list <<'LINES'
1A 00 2A 00 20 00 00 00 00 00 00 00  # MODE SENSE
15 00 00 00 20 00 00 00 00 00 00 00  # MODE SELECT
1A 00 2A 00 20 00 00 00 00 00 00 00  # MODE SENSE
LINES

heading "A build locks the door, so an operator's unload is stopped where the tape stands, until the build is done"
printf '\n$ tapecard packet scripts.img --any-answer\n'
tapecard packet scripts.img --any-answer <<'LINES'
2B 00 00 00 00 00 05 00 00 00 00 00  # LOCATE: the build is at work here
1E 00 00 00 01 00 00 00 00 00 00 00  # it has locked the door
1B 00 00 00 00 00 00 00 00 00 00 00  # an operator unloads
1E 00 00 00 00 00 00 00 00 00 00 00  # the build is done and unlocks
1B 00 00 00 00 00 00 00 00 00 00 00  # now the cartridge comes out
LINES

heading "A packet that lost its last byte is refused, and nothing changes"
tapecard packet scripts.img --record drive.record --any-answer 00 00 00 00 00 00 00 00 00 00 00 00 >drive.log
sha256sum scripts.img drive.record >before.sums
if run packet scripts.img --record drive.record 0A 01 00 00 01 00 00 00 00 00 00; then
    echo "demo: the cut packet was not refused" >&2
    exit 1
fi
sha256sum -c before.sums

heading "On the floppy device a glyph is redrawn in its block, and its neighbours stay as they were"
glyph_block 0x0E01 3 >block.0
glyph_block 0x0E02 4 >block.1
glyph_block 0x0E03 5 >block.2
glyph_block 0x0E02 6 >redrawn
cat block.0 block.1 block.2 >drawn
run new floppy.img --full --blocks 8 --block-size 512
run packet floppy.img --device floppy --data drawn 0A 01 00 00 03 00 00 00 00 00 00 00
printf '\n$ tapecard packet floppy.img --device floppy --data redrawn\n'
tapecard packet floppy.img --device floppy --data redrawn <<'LINES'
2B 00 00 00 00 00 01 00 00 00 00 00  # LOCATE block 1
0A 01 00 00 01 00 00 00 00 00 00 00  # WRITE one block there
LINES
run packet floppy.img --device floppy --out back 08 01 00 00 03 00 00 00 00 00 00 00
printf '\nblock 1 as it was, and as it is now\n'
paste <(head -n 9 block.1) <(tail -c +513 back | head -n 9)
cat block.0 redrawn block.2 | cmp - back
echo "blocks 0 and 2 are the same as before, byte for byte, and block 1 is the new one"
run info floppy.img

heading "A floppy tape's header block with a deleted address mark reads as data, and its mark is told"
mark() { # image, element: kind 4, as an image of a real tape has it
    printf '\004' | dd of="$1" bs=1 seek=$((32 + $2)) conv=notrunc status=none
}
mark short.img 0
run info short.img
run list short.img
run get short.img 1 -o thai.marked
cmp thai.glyphs thai.marked
mark floppy.img 0
run packet floppy.img --device floppy --out marked 08 01 00 00 03 00 00 00 00 00 00 00
cmp back marked
echo "the file and the three blocks are the same as before, byte for byte"

heading "A tape goes to the museum as a SIMH tape file, and comes back onto a cartridge that is made for it"
run export scripts.img scripts.tap
run import scripts.tap museum.img
run list museum.img
run get museum.img 2 -o ogham.museum
cmp ogham.glyphs ogham.museum
echo "the file is the same as before, byte for byte"

heading "A tape that the museum's simulated PDP-11 wrote replaces what was on it"
cp "$simh_files/blocks-512.tap" pdp11.tap
run import pdp11.tap museum.img
run labels museum.img
run packet museum.img 08 01 00 00 02 00 00 00 00 00 00 00

heading "One with a record of 81 bytes is refused: the item that is in the way is named, and nothing changes"
cp "$simh_files/odd.tap" odd.tap
sha256sum museum.img >before.sums
if run import odd.tap museum.img; then
    echo "demo: the foreign tape was not refused" >&2
    exit 1
fi
sha256sum -c before.sums

heading "A workstation loses its pulse drive in the middle of a report"
printf '\n$ tapecard pulse --record pulse.record\n'
tapecard pulse --record pulse.record <<'LINES'
insert segments=207 tracks=28 place=3 burst format=2 type=1
wait 207
ask 6
ask 7
26 7 4       # skip 37 segments forward
wait 207
14           # back to the load point
tick 10
10           # too early: the tape still moves
7            # what went wrong?
2 x5         # here the workstation stops listening
LINES

heading "Forty-six trains, sent by one call, bring it back"
run recover --record pulse.record

heading "An exchange with a train of 0 pulses in it is refused whole: none of its trains is sent, and nothing changes"
sha256sum pulse.record >before.sums
printf "\n\$ echo '26 7 0' | tapecard pulse --record pulse.record\n"
if echo '26 7 0' | tapecard pulse --record pulse.record; then
    echo "demo: the exchange was not refused" >&2
    exit 1
fi
sha256sum -c before.sums

heading "Done"
