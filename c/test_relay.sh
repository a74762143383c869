#!/bin/sh
# The example relay end to end, on this machine alone: real recordings cut into crumbs go in, by pipe and by TCP, and
# what comes out is held to the scan of the whole recording by the reference.
#
# Usage: test_relay.sh BUILD RECORDING..   where BUILD has the programs relay, crumbs and expected
set -u

# The whole test is bounded: what hangs is ended after two minutes.
if [ -z "${RELAY_TEST_BOUNDED-}" ]; then
    RELAY_TEST_BOUNDED=1
    export RELAY_TEST_BOUNDED
    exec timeout 120 "$0" "$@"
fi

build=$1
shift
work=$(mktemp -d)
started=
passed=0
failed=0

# Ends what this test started and has not yet waited for, by its id, and removes the files.
clean_up() {
    for id in $started; do kill "$id" 2>/dev/null; done
    rm -rf "$work"
}
trap clean_up EXIT
trap 'exit 1' INT TERM

relay() { timeout 30 "$build/relay" "$@"; }

# Remembers the program that was started last, until it is waited for.
remember() { started="$started $1 "; }

# Waits for a program, checks its status and forgets it.
ended() {
    wait "$1"
    check "$2" $? "$3"
    started=$(printf '%s' "$started" | sed "s/ $1 //")
}

check() {
    if [ "$2" = "$3" ]; then
        passed=$((passed + 1))
    else
        failed=$((failed + 1))
        printf 'relay: %s: got "%s", expected "%s"\n' "$1" "$2" "$3" >&2
    fi
}

check_same() {
    if cmp -s "$2" "$3"; then
        passed=$((passed + 1))
    else
        failed=$((failed + 1))
        printf 'relay: %s: the frames differ\n' "$1" >&2
    fi
}

# Waits, for at most ten seconds, until a file has a line with the words; prints that line's last word.
wait_for_line() {
    tries=0
    while [ $tries -lt 200 ]; do
        found=$(sed -n "s/.*$2.* //p" "$1" 2>/dev/null | head -n 1)
        if [ -n "$found" ]; then
            echo "$found"
            return 0
        fi
        tries=$((tries + 1))
        sleep 0.05
    done
    return 1
}

# The port that a relay printed, in `port`; a failed check where there is none.
find_port() {
    port=$(wait_for_line "$1" "$2")
    check "the relay says where it listens" $? 0
}

size_of() { if [ -f "$1" ]; then wc -c <"$1"; else echo 0; fi; }

# Waits, for at most ten seconds, until the first file is as long as the second.
wait_for_bytes() {
    tries=0
    while [ "$(size_of "$1")" -lt "$(size_of "$2")" ] && [ $tries -lt 200 ]; do
        tries=$((tries + 1))
        sleep 0.05
    done
}

# Removes what an earlier relay printed, so that no old line is taken for a new one.
forget() { rm -f "$work/out" "$work/err1" "$work/err2" "$work/status"; }

# Frames, skipped and held, out of the counts that a relay printed.
counted() {
    sed -n 's/^relay: frames \([0-9]*\) .*/\1/p; s/^relay: skipped \([0-9]*\) .*/\1/p; s/^relay: held \([0-9]*\) .*/\1/p' "$1" |
        tr '\n' ' ' | sed 's/ $//'
}

# Crumbs through a pipe.
through_a_pipe() {
    "$build/crumbs" "$2" <"$1" | relay >"$work/out" 2>"$work/err"
    check "status of a pipe" $? 0
    check_same "pipe, crumbs of $2, $1" "$work/out" "$work/frames"
    check "counts of a pipe, $1" "$(counted "$work/err")" "$(cat "$work/counts")"
}

# Crumbs over TCP to a relay that listens; it sends to a second relay, which listens too and writes a file.
through_tcp() {
    forget
    relay --listen 0 >"$work/out" 2>"$work/err2" &
    second=$!
    remember $second
    find_port "$work/err2" 'reading from'
    relay --listen 0 --out-connect "127.0.0.1:$port" 2>"$work/err1" &
    first=$!
    remember $first
    find_port "$work/err1" 'reading from'
    "$build/crumbs" "$2" "$port" <"$1"
    ended $first "status of the first relay" 0
    ended $second "status of the second relay" 0
    check_same "TCP, crumbs of $2, $1" "$work/out" "$work/frames"
    check "counts over TCP, $1" "$(counted "$work/err1")" "$(cat "$work/counts")"
    check "the second relay skips nothing" "$(counted "$work/err2")" "$(cut -d' ' -f1 "$work/counts") 0 0"
}

# A relay that lets its reader connect, and a relay that connects to read.
reader_connects() {
    forget
    "$build/crumbs" 9 <"$1" | relay --out-listen 127.0.0.1:0 2>"$work/err1" &
    first=$!
    remember $first
    find_port "$work/err1" 'writing to'
    relay --connect "127.0.0.1:$port" >"$work/out" 2>"$work/err2"
    check "status of the reader" $? 0
    ended $first "status of the relay that is read" 0
    check_same "the reader connects, $1" "$work/out" "$work/frames"
}

only_some_messages() {
    number=$(sed -n 's/^relay: message \([0-9]*\): .*/\1/p' "$work/err" | head -n 1)
    "$build/expected" "$number" <"$1" >"$work/some" 2>/dev/null
    relay --message "$number" <"$1" >"$work/out" 2>"$work/err1"
    check_same "only message $number, $1" "$work/out" "$work/some"
    check "counts are of all messages" "$(counted "$work/err1")" "$(cat "$work/counts")"
    relay -m 1 -m "2,$number,3" -q <"$1" >"$work/out" 2>"$work/err1"
    check_same "message $number among others, $1" "$work/out" "$work/some"
    check "quiet prints nothing" "$(cat "$work/err1")" ""
}

# Many signals while crumbs come: counts are printed, and nothing is lost.
interrupted() {
    forget
    mkfifo "$work/fifo"
    "$build/relay" <"$work/fifo" >"$work/out" 2>"$work/err1" &
    id=$!
    remember $id
    { cat "$1"; sleep 0.3; "$build/crumbs" 3 <"$1"; sleep 0.3; } >"$work/fifo" &
    feeder=$!
    remember $feeder
    wait_for_bytes "$work/out" "$work/frames"
    signals=0
    while [ $signals -lt 20 ]; do
        kill -USR1 $id
        sleep 0.02
        signals=$((signals + 1))
    done
    ended $id "status after many signals" 0
    ended $feeder "status of what fed it" 0
    cat "$work/frames" "$work/frames" >"$work/twice"
    check_same "interrupted, $1" "$work/out" "$work/twice"
    check "counts were printed on a signal" "$(grep -c '^relay: read ' "$work/err1" | awk '{ print ($1 > 2) }')" 1
    rm -f "$work/fifo"
}

# Stopped while it waits for bytes: it prints its counts and ends with 0.
stopped() {
    forget
    mkfifo "$work/fifo"
    "$build/relay" <"$work/fifo" >"$work/out" 2>"$work/err1" &
    id=$!
    remember $id
    exec 3>"$work/fifo"
    cat "$1" >&3
    wait_for_bytes "$work/out" "$work/frames"
    kill -"$2" $id
    ended $id "status after $2" 0
    exec 3>&-
    check_same "stopped by $2, $1" "$work/out" "$work/frames"
    check "counts after $2" "$(counted "$work/err1")" "$(cat "$work/counts")"
    rm -f "$work/fifo"
}

# An output that takes nothing: no frame is counted as passed.
full_output() {
    if [ ! -c /dev/full ]; then
        return
    fi
    relay <"$1" >/dev/full 2>"$work/full"
    check "a full output: status" $? 1
    check "a full output: counts" "$(grep -c '^relay: passed 0 of 0 bytes$' "$work/full")" 1
}

# The reader goes away: an error and counts, not the end by a signal.
closed_peer() {
    forget
    cat "$1" "$1" "$1" "$1" "$1" "$1" "$1" "$1" >"$work/long"
    { relay <"$work/long" 2>"$work/err1"; echo $? >"$work/status"; } | head -c 10 >/dev/null
    check "status when the reader of a pipe goes" "$(cat "$work/status")" 1
    check "the broken pipe is named" "$(grep -c 'relay: writing: ' "$work/err1")" 1
    check "counts are printed all the same" "$(grep -c '^relay: read ' "$work/err1")" 1

    "$build/relay" --listen 0 >/dev/null 2>"$work/err2" &
    id=$!
    remember $id
    find_port "$work/err2" 'reading from'
    { cat "$1"; sleep 0.3; cat "$work/long"; sleep 0.1; cat "$work/long"; } |
        { relay --out-connect "127.0.0.1:$port" 2>"$work/err1"; echo $? >"$work/status"; } &
    pipeline=$!
    remember $pipeline
    sleep 0.15
    kill -TERM $id
    ended $id "status of the stopped reader" 0
    ended $pipeline "status of the pipeline" 0
    check "status when a TCP reader goes" "$(cat "$work/status")" 1
    check "counts are printed then too" "$(grep -c '^relay: read ' "$work/err1")" 1
}

# Stopped while its reader does not read: it says what was not written and ends with 1.
stalled_reader() {
    forget
    cat "$1" "$1" "$1" "$1" "$1" "$1" "$1" "$1" >"$work/long"
    mkfifo "$work/fifo"
    "$build/relay" <"$work/long" >"$work/fifo" 2>"$work/err1" &
    id=$!
    remember $id
    exec 3<"$work/fifo"
    head -c 10 <&3 >/dev/null
    sleep 0.2
    kill -TERM $id
    ended $id "status when stopped with frames waiting" 1
    exec 3<&-
    check "what was not written is named" "$(grep -c 'bytes not written' "$work/err1")" 1
    rm -f "$work/fifo"
}

# Runs the relay with options only, and holds its status to what is expected.
status_of() {
    expected=$1
    shift
    relay "$@" </dev/null >"$work/out" 2>"$work/err1"
    check "status of: $*" $? "$expected"
}

options() {
    status_of 0 --help
    check "help is printed" "$(head -c 6 "$work/out")" "usage:"
    status_of 0
    status_of 2 --no-such-option
    status_of 2 extra
    status_of 2 --message
    status_of 2 --message 4096
    status_of 2 --message 1059,
    status_of 2 --message ""
    status_of 2 --message -1
    status_of 2 --listen 1 --connect 127.0.0.1:1
    status_of 1 --connect 127.0.0.1:1
    status_of 2 --connect 127.0.0.1
    status_of 2 --out-connect :9
    status_of 2 --listen 127.0.0.1:
    status_of 1 --listen 127.0.0.1:no-such-port
    relay <&- >/dev/null 2>&1
    check "status without standard input" $? 1
}

# The list of numbers from a file: saved beside and renamed, taken over, and kept where the block is refused.
settings_file() {
    file=$work/settings
    relay -q -m 1004 <"$1" >"$work/by_option"
    relay -q -s "$file" -S -m 1004 <"$1" >"$work/saved"
    check "status of saving" $? 0
    check_same "saved settings" "$work/saved" "$work/by_option"
    check "bytes of the settings" "$(wc -c <"$file")" 512
    check "nothing is left beside" "$(ls "$work" | grep -c '^settings')" 1
    relay -q -s "$file" <"$1" >"$work/taken" 2>"$work/said"
    check_same "settings taken over" "$work/taken" "$work/by_option"
    check "nothing to say" "$(wc -c <"$work/said")" 0
    relay -q -s "$file" -m 1006 <"$1" >"$work/taken"
    check_same "settings before options" "$work/taken" "$work/by_option"

    # A block that is cut short, damaged or not there: the list of the options stays.
    relay -q -m 1006 <"$1" >"$work/by_option"
    head -c 511 "$file" >"$work/short"
    relay -q -s "$work/short" -m 1006 <"$1" >"$work/taken" 2>"$work/said"
    check_same "a block cut short" "$work/taken" "$work/by_option"
    check "cut short, said" "$(grep -c 'refused with Size' "$work/said")" 1
    { head -c 5 "$file"; printf 'x'; tail -c 506 "$file"; } >"$work/damaged"
    relay -q -s "$work/damaged" -m 1006 <"$1" >"$work/taken" 2>"$work/said"
    check_same "a damaged block" "$work/taken" "$work/by_option"
    check "damaged, said" "$(grep -c 'refused with BadCheck' "$work/said")" 1
    head -c 512 /dev/zero >"$work/zeros"
    relay -q -s "$work/zeros" -m 1006 <"$1" >"$work/taken" 2>"$work/said"
    check_same "a block of zeros" "$work/taken" "$work/by_option"
    check "zeros, said" "$(grep -c 'refused with Kind' "$work/said")" 1
    relay -q -s "$work/absent" -m 1006 <"$1" >"$work/taken" 2>/dev/null
    check_same "no file" "$work/taken" "$work/by_option"

    # A save that fails leaves the old file: 65 numbers, and no place to write to.
    cp "$file" "$work/old"
    relay -q -s "$file" -S -m "$(seq -s , 1 65)" <"$1" >/dev/null 2>&1
    check "65 numbers" $? 1
    check_same "the old settings stay" "$file" "$work/old"
    relay -q -s "$work/no/such/place" -S -m 1 <"$1" >/dev/null 2>&1
    check "no such place" $? 1
    relay -q -S -m 1 <"$1" >/dev/null 2>&1
    check "nowhere to save to" $? 2
    rm -f "$file" "$work/short" "$work/damaged" "$work/zeros" "$work/old"
}

# An acknowledgement of UBX, an RTCM frame, and the question for the version of UBX.
ubx_and_rtcm() {
    ack='\265\142\005\001\002\000\006\001\017\070'
    rtcm='\323\000\000\107\352\113'
    version='\265\142\012\004\000\000\016\064'
    printf "$ack$rtcm$version" >"$work/mixed"
    printf "$rtcm" >"$work/rtcm"
    relay <"$work/mixed" >"$work/out" 2>"$work/err1"
    check_same "UBX is skipped" "$work/out" "$work/rtcm"
    check "skipped UBX is counted" "$(counted "$work/err1")" "1 18 0"
    relay --ubx drop <"$work/mixed" >"$work/out" 2>"$work/err1"
    check_same "UBX is dropped" "$work/out" "$work/rtcm"
    check "dropped UBX is no skipped byte" "$(counted "$work/err1")" "3 0 0"
    relay --ubx pass --places <"$work/mixed" >"$work/out" 2>"$work/err1"
    check_same "UBX is passed on" "$work/out" "$work/mixed"
    check "places and kinds" "$(sed -n 's/^relay: \(.*\) frame of \(.*\) bytes at /\1 \2 /p' "$work/err1" | tr '\n' ';')" \
        "UBX 10 0;RTCM 6 10;UBX 8 16;"
    status_of 2 --ubx both
}

options
ubx_and_rtcm
for recording in "$@"; do
    "$build/expected" <"$recording" >"$work/frames" 2>"$work/counts"
    through_a_pipe "$recording" 1
    only_some_messages "$recording"
    settings_file "$recording"
    through_a_pipe "$recording" 2000
    through_tcp "$recording" 40
done
through_tcp "$recording" 1
reader_connects "$recording"
interrupted "$recording"
stopped "$recording" INT
stopped "$recording" TERM
closed_peer "$recording"
full_output "$recording"
stalled_reader "$recording"

echo "relay: $passed checks, $failed failed"
[ "$failed" -eq 0 ]
