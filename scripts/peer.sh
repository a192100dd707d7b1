#!/usr/bin/env bash
# The card beside a real SIMH (02, A7): what the card exports is read by the simulator item by item, what the simulator writes is
# imported and read by the card, and both have to find the same. Run by `make peer`, after the archive and the command are built;
# no part of the gate, since it takes SIMH. TAPECARD may name another build of the command.
set -euo pipefail
cd "$(dirname "$0")/.."

launcher=$PWD/scripts/tapecard
tapecard() { "$launcher" "$@"; }
. examples/simh/reel.sh

install_simh() {
    ! command -v pdp11 >/dev/null || return 0
    if ! command -v apt-get >/dev/null || [ "$(id -u)" != 0 ]; then
        echo "peer: pdp11 of SIMH is missing; to install it takes Debian's apt-get and root: package simh" >&2
        exit 1
    fi
    echo "peer: installing simh, whose simulator is the card's peer" >&2
    apt-get update -q >&2
    DEBIAN_FRONTEND=noninteractive apt-get install -y -q --no-install-recommends simh >&2
}

install_simh
kept_files=$PWD/examples/simh
place=$(mktemp -d)
trap 'rm -rf "$place"' EXIT
cd "$place"

in_a_line() { # file: its words behind one another
    words_of "$1" | tr '\n' ' ' | sed 's/^/ /; s/ $//'
}

# What the card finds on a tape, in the lines of read_reel: one READ of one block after the other, up to the end of data. An
# unreadable block's bytes are those of the image, at D + i*B.
read_card() { # image, blocks of the tape, bytes of a block
    local image=$1 element told
    rm -f drive.record
    tapecard packet "$image" --record drive.record --any-answer 00 00 00 00 00 00 00 00 00 00 00 00 >card.log
    for ((element = 0; element <= $2; element++)); do
        told=$(tapecard packet "$image" --record drive.record --any-answer --out block --force 08 01 00 00 01 00 00 00 00 00 00 00)
        case $told in
        *"  status    0 GOOD"*) echo "data$(in_a_line block)" ;;
        *"(0/00/01)"*) echo mark ;;
        *"(3/11/00)"*)
            dd if="$image" of=block bs=1 skip=$((32 + $2 + element * $3)) count="$3" status=none
            echo "unreadable$(in_a_line block)"
            ;;
        *"(8/00/05)"*) break ;;
        *) echo "the card said $told" ;;
        esac
    done
    echo end
}

# Fails with the first items that differ.
same() { # what both are, one listing, the other
    if ! cmp -s "$2" "$3"; then
        echo "peer: $1 differ:" >&2
        diff "$2" "$3" | cut -c 1-120 >&2 || true
        exit 1
    fi
    echo "$1 are the same: $(cut -d ' ' -f 1 "$2" | tr '\n' ' ')"
}

differ() { # what both are, one listing, the other
    if cmp -s "$2" "$3"; then
        echo "peer: $1 are the same, so nothing that is compared here proves anything" >&2
        exit 1
    fi
}

set_kind() { # image, element, kind in octal
    printf %b "\\0$3" | dd of="$1" bs=1 seek=$((32 + $2)) conv=notrunc status=none
}

# Another byte, wherever it stands.
flip() { # file, offset
    local byte
    byte=$(od -An -tu1 -j "$2" -N 1 "$1")
    printf %b "\\x$(printf %02x $((byte ^ 255)))" | dd of="$1" bs=1 seek="$2" conv=notrunc status=none
}

# Two files of three and two blocks, each with its filemark, and a filemark behind them; a block of each is marked or unreadable.
make_cartridge() { # image, bytes of a block
    tapecard new "$1" --blocks 12 --block-size "$2" --early-warning 0
    head -c $((3 * $2)) /dev/urandom >first
    head -c $((2 * $2)) /dev/urandom >second
    tapecard put "$1" first second --raw
    tapecard packet "$1" --any-answer >card.log <<'LINES'
11 03 00 00 00 00 00 00 00 00 00 00
10 00 00 00 01 00 00 00 00 00 00 00
LINES
    set_kind "$1" 1 11
    set_kind "$1" 4 4
}

card_to_simulator() { # bytes of a block
    local bytes=$1
    rm -f card.img card.tap
    make_cartridge card.img "$bytes"
    tapecard export card.img card.tap
    read_card card.img 12 "$bytes" >by-card
    read_reel card.tap 9 "$bytes" >by-simulator
    same "the card's elements and those that the simulator reads" by-card by-simulator
    # in the first record, in the error flag of the second, in the word of the first tape mark
    for offset in 100 $((bytes + 8 + 3)) $((3 * (bytes + 8))); do
        cp card.tap flipped.tap
        flip flipped.tap "$offset"
        read_reel flipped.tap 9 "$bytes" >by-simulator
        differ "a file with another byte $offset and the card" by-card by-simulator
    done
    simulator_reads_back "$bytes"
}

# What the simulator was given comes back: marked blocks as plain ones, unreadable ones as kind 0.
simulator_reads_back() { # bytes of a block
    rm -f back.img
    tapecard import card.tap back.img
    read_card back.img 8 "$1" >back
    same "the card's elements and those that came back" by-card back
    tapecard export back.img back.tap --force
    cmp card.tap back.tap
}

simulator_to_card() { # bytes of a block
    local bytes=$1 number
    for number in 1 2 3 4; do head -c "$bytes" /dev/urandom >"record-$number"; done
    local items=(record-1 record-2 mark mark record-3 mark record-4)
    write_reel theirs.tap "${items[@]}"
    for item in "${items[@]}"; do
        case $item in mark) echo mark ;; *) echo "data$(in_a_line "$item")" ;; esac
    done >written
    echo end >>written
    rm -f made.img
    tapecard import theirs.tap made.img
    read_card made.img 7 "$bytes" >by-card
    same "the records that the simulator wrote and those on a fresh cartridge" written by-card
    tapecard import theirs.tap card.img
    read_card card.img 12 "$bytes" >by-card
    same "the records that the simulator wrote and those on a cartridge with others" written by-card
    flip made.img $((32 + 7 + 100))
    read_card made.img 7 "$bytes" >by-card
    differ "a cartridge with another byte and the records" written by-card
}

# The files that the command's tests import are those that SIMH writes. Another version may pad a record by another byte.
compare_kept_files() {
    if ! grep -q 'V3\.8-1 ' version; then
        echo "not compared: they are of V3.8-1"
        return
    fi
    mkdir anew
    "$kept_files/make.sh" anew >make.log
    for file in "$kept_files"/*.tap; do
        cmp "$file" "anew/$(basename "$file")"
    done
    echo "SIMH writes the files of examples/simh as they are kept: $(cd anew && echo *.tap)"
}

printf 'show version\nq\n' | simulate | grep simulator | tail -n 1 | tee version
for bytes in 512 1024; do
    printf '\n== Blocks of %s bytes\n' "$bytes"
    card_to_simulator "$bytes"
    simulator_to_card "$bytes"
done
printf '\n== Kept files\n'
compare_kept_files
