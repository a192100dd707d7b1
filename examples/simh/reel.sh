# Sourced: reels on the simulated TM11 tape drive of SIMH's PDP-11, driven by scripts. Numbers of a SIMH script are octal.
# A reel is written from items, each the word `mark` or the name of a file with a record's bytes. Reels and records are files
# of the current folder.

# The drive's registers: what an item did, how many bytes a transfer has left (as a negative number), and the order itself.
STATUS=17772520
BYTES_LEFT=17772524
# Orders: 60000 is 800 bits an inch on nine tracks, 1 begins, the rest says what to do.
READ=060003
WRITE=060005
WRITE_MARK=060007
REWIND=060017
# More than any record: what is left of it says how long the record was.
ROOM=4096
# Where in the memory a record goes.
BUFFER=10000

# Puts a program into the simulated memory that gives the drive one order and halts when that is done.
program() {
    cat <<'LINES'
set tm enable
d 1000 012737
d 1004 172524
d 1006 012737
d 1010 010000
d 1012 172526
d 1014 012737
d 1020 172522
d 1022 105737
d 1024 172522
d 1026 100375
d 1030 000000
LINES
}

order() { # order, bytes
    printf 'd 1016 %s\nd 1002 %06o\ngo 1000\n' "$1" $((65536 - $2))
}

# A file's bytes as the 16-bit words of the simulated machine, in octal, one a line.
words_of() { # file
    od -An -v -w2 -to2 --endian=little "$1" | tr -d ' '
}

# The record's bytes go into the simulated memory; an odd one has a byte more there.
deposit() { # file
    local at=$((8#$BUFFER)) word
    while read -r word; do
        printf 'd %o %s\n' "$at" "$word"
        at=$((at + 2))
    done < <(words_of "$1")
}

item_order() { # item
    if [ "$1" = mark ]; then
        order "$WRITE_MARK" 0
    else
        deposit "$1"
        order "$WRITE" "$(stat -c %s "$1")"
    fi
    echo "ex $STATUS"
}

# The script has to end with q: the simulator would ask for more for ever, and is ended after a while.
simulate() { # script on standard input
    cat >reel.script
    timeout 30 pdp11 reel.script </dev/null
    rm reel.script
}

# Has the simulator write these items onto a new reel. A second list, behind the word `rewind`, is written over the first.
write_reel() { # reel, items
    local reel=$1 item wanted=0
    shift
    {
        program
        echo "attach -n tm0 $reel"
        for item in "$@"; do
            if [ "$item" = rewind ]; then order "$REWIND" 0; else item_order "$item"; fi
        done
        printf 'detach tm0\nq\n'
    } | simulate >reel.log
    for item in "$@"; do [ "$item" = rewind ] || wanted=$((wanted + 1)); done
    # 101: the drive is ready, and nothing went wrong
    if [ "$(grep -c "^$STATUS:.000101" reel.log)" != "$wanted" ]; then
        echo "simh: the simulator did not write $reel as it was told:" >&2
        cat reel.log >&2
        return 1
    fi
    rm reel.log
}

# What the simulator finds on a reel, a line an item: `data`, `mark`, `unreadable` or `end`, and a record's words. A record of
# another length than this is told by its length.
read_reel() { # reel, items to read, bytes of a record
    local reel=$1 items=$2 bytes=$3 item
    {
        program
        echo "attach -r tm0 $reel"
        for ((item = 0; item < items; item++)); do
            order "$READ" $ROOM
            echo "ex $STATUS"
            echo "ex $BYTES_LEFT"
            printf 'ex %s-%o\n' $BUFFER $((8#$BUFFER + bytes - 2))
        done
        echo q
    } | simulate >reel.log
    items_in_log "$bytes" <reel.log
    rm reel.log
}

items_in_log() { # bytes of a record; the simulator's words on standard input
    local wanted=$1 register value status='' bytes='' words=''
    while IFS=$': \t\r' read -r register value _; do
        case $register in
        "$STATUS")
            [ -z "$status" ] || item_line "$wanted" "$status" "$bytes" "$words"
            status=$value words=
            ;;
        "$BYTES_LEFT") bytes=$((ROOM - 65536 + 8#$value)) ;;
        1[0-7][0-7][0-7][0-7]) words+=" $value" ;;
        esac
    done
    item_line "$wanted" "$status" "$bytes" "$words"
}

# 40000 is a tape mark, 10000 an error of the record, 400 the end of the medium.
item_line() { # bytes of a record, status, bytes of this one, its words
    local length=''
    [ "$3" = "$1" ] || length=" of $3 bytes"
    case $2 in
    000105) echo "data$length$4" ;;
    010105) echo "unreadable$length$4" ;;
    040105) echo mark ;;
    000505) echo end ;;
    *) echo "status $2" ;;
    esac
}
