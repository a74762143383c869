#!/bin/sh
# The programs as a user has them: a live stream, an output that cannot be written, options.
#
# Usage: test_programs.sh BIN DATA VERSION CRATES   where BIN has the programs, DATA the recordings, and CRATES what the
# programs are run on by their own checks
set -u

# The whole test is bounded: what hangs is ended after two minutes.
if [ -z "${PROGRAMS_TEST_BOUNDED-}" ]; then
    PROGRAMS_TEST_BOUNDED=1
    export PROGRAMS_TEST_BOUNDED
    exec timeout 120 "$0" "$@"
fi

bin=$1
data=$2
version=$3
crates=$4
work=$(mktemp -d)
started=
passed=0
failed=0

# Ends what this test started and has not yet waited for, by its id, and removes the files.
clean_up() {
    for id in $started; do kill "$id" 2>/dev/null; done
    rm -rf "$work"
}
trap clean_up EXIT
trap 'exit 1' INT TERM

check() {
    if [ "$2" = "$3" ]; then
        passed=$((passed + 1))
    else
        failed=$((failed + 1))
        printf 'programs: %s: got "%s", expected "%s"\n' "$1" "$2" "$3" >&2
    fi
}

# Waits, for at most ten seconds, until a file has a line with the words. Says 1 if it has, else 0.
comes() {
    for _ in 1 2 3 4 5 6 7 8 9 10 11 12 13 14 15 16 17 18 19 20; do
        if grep -q "$2" "$1"; then
            echo 1
            return
        fi
        sleep 0.5
    done
    echo 0
}

last_line() { tail -n 1 "$work/err"; }

# A frame's row is there while the stream is still open: an interrupt would lose nothing.
slow_pipe() {
    mkfifo "$work/fifo"
    "$bin/$1" - <"$work/fifo" >"$work/out" 2>"$work/err" &
    id=$!
    started=$id
    exec 3>"$work/fifo"
    head -c "$3" "$2" >&3
    check "$1: the row of a frame that has arrived is there" "$(comes "$work/out" "$4")" 1
    check "$1: the stream is still open" "$(kill -0 "$id" && echo 1)" 1
    exec 3>&-
    wait "$id"
    check "$1: status" $? 0
    started=
    check "$1: nothing is said" "$(cat "$work/err")" ""
    rm "$work/fifo"
}

# An output that cannot be written ends the program, which says so; its last line tells failure. The words are what the
# program is started with.
no_output() {
    program=$1
    shift
    "$bin/$program" "$@" >/dev/full 2>"$work/err"
    check "$program, full output: status" $? 0
    check "$program, full output: said once" "$(grep -c '^standard output: ' "$work/err")" 1
    check "$program, full output: last line" "$(last_line)" "$program: failed"

    "$bin/$program" "$@" >&- 2>"$work/err"
    check "$program, closed output: status" $? 0
    check "$program, closed output: said" "$(grep -c '^standard output: ' "$work/err")" 1
    check "$program, closed output: last line" "$(last_line)" "$program: failed"

    (
        trap '' PIPE
        { sleep 0.3; "$bin/$program" "$@" 2>"$work/err"; } | true
    )
    check "$program, no reader: said" "$(grep -c '^standard output: ' "$work/err")" 1
    check "$program, no reader: last line" "$(last_line)" "$program: failed"
}

# A non-blocking output that takes nothing, since the pipe is full, is said and ends the program.
choked_output() {
    program=$1
    shift
    mkfifo "$work/fifo"
    sleep 30 <"$work/fifo" &
    started=$!
    {
        dd oflag=nonblock if=/dev/zero bs=4096 count=512 2>/dev/null
        "$bin/$program" "$@" 2>"$work/err"
    } >"$work/fifo"
    check "$program, choked output: said once" "$(grep -c '^standard output: ' "$work/err")" 1
    check "$program, choked output: last line" "$(last_line)" "$program: failed"
    kill "$started"
    wait "$started" 2>/dev/null
    started=
    rm "$work/fifo"
}

# Options that all programs have. The words are what the program is started with where all is well.
options() {
    program=$1
    shift
    check "$program --version" "$("$bin/$program" --version)" "$program $version"
    check "$program -h is --help" "$("$bin/$program" -h)" "$("$bin/$program" --help)"
    check "$program --help tells of the status" "$("$bin/$program" --help | grep -c 'exit status is always 0')" 1
    "$bin/$program" --help >/dev/full 2>"$work/err"
    check "$program: a help text that cannot be written is failure" "$(last_line)" "$program: failed"
    "$bin/$program" --no-such --nor-this "$@" >"$work/out" 2>"$work/err"
    check "$program: the first of two wrong options is named" "$(grep -c 'no such option: --no-such ' "$work/err")" 1
    check "$program: a wrong option is failure" "$(last_line)" "$program: failed"
    check "$program: nothing is shown then" "$(cat "$work/out")" ""
    "$bin/$program" >"$work/out" 2>"$work/err"
    check "$program: no word is failure" "$(last_line)" "$program: failed"
    check "$program: nor is anything shown then" "$(cat "$work/out")" ""
    "$bin/$program" "$@" >"$work/out" 2>"$work/err"
    check "$program: nothing is said where all is well" "$(cat "$work/err")" ""
    check "$program: behind -- all is as before" "$("$bin/$program" -- "$@")" "$(cat "$work/out")"
}

# Programs that go through recordings: a missing one is said and the next is shown; a name behind --.
recordings() {
    "$bin/$1" "$work/missing" "$2" >"$work/out" 2>"$work/err"
    check "$1: a missing file is named" "$(grep -c "^$work/missing: " "$work/err")" 1
    check "$1: a missing file is failure" "$(last_line)" "$1: failed"
    check "$1: the next file is shown" "$(grep -c "^$2\$" "$work/out")" 1
    cp "$2" "$work/--quiet"
    (cd "$work" && "$bin/$1" -- --quiet >out 2>err)
    check "$1: a file behind --" "$(head -n 1 "$work/out")" "--quiet"
}

# Programs that take two words and read a file whole.
two_words() {
    program=$1
    shift
    "$bin/$program" "$1" >"$work/out" 2>"$work/err"
    check "$program: one word is failure" "$(last_line)" "$program: failed"
    "$bin/$program" "$@" "$1" >"$work/out" 2>"$work/err"
    check "$program: three words are failure" "$(last_line)" "$program: failed"
    for wrong in "$work/missing" "$work" "$work/long"; do
        "$bin/$program" "$wrong" "$2" >"$work/out" 2>"$work/err"
        check "$program: $wrong is named" "$(grep -c "^$wrong: " "$work/err")" 1
        check "$program: $wrong is failure" "$(last_line)" "$program: failed"
        check "$program: nothing is shown of $wrong" "$(cat "$work/out")" ""
    done
    check "$program: standard input" "$("$bin/$program" - "$2" <"$1")" "$("$bin/$program" "$1" "$2")"
}

# What rtcm_why and rtcm_compare refuse, and what they show.
refusals() {
    "$bin/rtcm_why" "$data/rtcm3.bin" 999999 >"$work/out" 2>"$work/err"
    check "rtcm_why: a place past the end is refused" "$(head -n 1 "$work/err" | cut -c 1-17)" "refused with Size"
    check "rtcm_why: a refusal is failure" "$(last_line)" "rtcm_why: failed"
    for word in 1x "" 0x10; do
        "$bin/rtcm_why" "$data/rtcm3.bin" "$word" >"$work/out" 2>"$work/err"
        check "rtcm_why: '$word' is no place" "$(last_line)" "rtcm_why: failed"
        check "rtcm_why: nothing is shown of '$word'" "$(cat "$work/out")" ""
    done
    printf 'ab' >"$work/two"
    "$bin/rtcm_compare" "$work/two" "$data/rtcm3.bin" >"$work/out" 2>"$work/err"
    check "rtcm_compare: other lengths are refused" "$(head -n 1 "$work/err" | cut -c 1-17)" "refused with Size"
    check "rtcm_compare: a refusal is failure" "$(last_line)" "rtcm_compare: failed"
    check "rtcm_compare: equal files" "$("$bin/rtcm_compare" "$work/two" "$work/two")" "equal, 2 bytes"
    head -c 65536 /dev/zero >"$work/zeros"
    head -c 65536 /dev/zero | tr '\000' '\253' >"$work/others"
    "$bin/rtcm_compare" "$work/zeros" "$work/others" >"$work/out" 2>"$work/err"
    check "rtcm_compare: long rows are whole" "$(wc -c <"$work/out" | tr -d ' ')" 393275
    check "rtcm_compare: nothing is said of long rows" "$(cat "$work/err")" ""
}

warnings() {
    "$bin/rtcm_biases" "$data/rtcm3-1.bin" >"$work/out" 2>"$work/err"
    check "blocks that start elsewhere are marked" "$(grep -c 'bits left over behind the block: WARNING' "$work/out")" 34
    check "and counted at the end" "$(grep -c 'WARNING, 34 leave eight or more bits unread' "$work/out")" 1
    for option in --start --start-1059; do
        "$bin/rtcm_biases" $option 42 "$data/rtcm3-1.bin" >"$work/out" 2>"$work/err"
        check "$option 42: no warning" "$(grep -c WARNING "$work/out")" 0
        check "$option 42: all blocks" "$(grep -c '^  34 blocks read, 0 refused$' "$work/out")" 1
    done
    "$bin/rtcm_biases" --start-1059 42 "$data/rtcm3.bndm.bin" >"$work/out" 2>"$work/err"
    check "--start-1059 leaves 1230 alone" "$(grep -c '^  6 blocks read, 0 refused$' "$work/out")" 1
    "$bin/rtcm_biases" --start-1230 20000 "$data/rtcm3.bndm.bin" >"$work/out" 2>"$work/err"
    check "--start-1230" "$(grep -c '^  0 blocks read, 6 refused$' "$work/out")" 1
    "$bin/rtcm_biases" --start "$data/rtcm3.bndm.bin" >"$work/out" 2>"$work/err"
    check "--start without a number" "$(last_line)" "rtcm_biases: failed"
    whole=$crates/rtcm_biases/data/whole-1059.bin
    "$bin/rtcm_biases" --latest --edition 2 "$whole" "$data/rtcm3.bndm.bin" >"$work/out" 2>"$work/err"
    check "--latest: the first provider" "$(sed -n 1,5p "$work/out" | tr -s ' ' | tr '\n' ';')" \
        "provider 258, solution 1; satellite signal raw metres IOD; 5 1C 101 1.01 0; 5 2W -50 -0.50 15; 17 1Y 8191 81.91 15;"
    check "--latest: the second provider" "$(sed -n 6,9p "$work/out" | tr -s ' ' | tr '\n' ';')" \
        "provider 259, solution 0; satellite signal raw metres IOD; 5 1C -8192 -81.92 3; 63 5Q 7 0.07 3;"
    check "--latest: what was read" "$(tail -n 1 "$work/out")" "3 messages 1059 read, 1 refused, 0 biases without room"
    check "--latest: nothing is said where all is well" "$(cat "$work/err")" ""
    "$bin/rtcm_biases" --latest "$whole" "$work/missing" >"$work/out" 2>"$work/err"
    check "--latest, a file that is not there" "$(last_line)" "rtcm_biases: failed"
    "$bin/rtcm_biases" -- --latest >"$work/out" 2>"$work/err"
    check "--latest behind -- names a file" "$(grep -c '^--latest: ' "$work/err")" 1
    printf 'no frame at all' >"$work/noise"
    check "no frames" "$("$bin/rtcm_biases" "$work/noise" | grep -c '^  no frames$')" 1
    check "no such message" "$("$bin/rtcm_biases" "$data/rtcm3.bin" | grep -c '^  no message 1059 or 1230 in 2 frames$')" 1
}

# UBX frames beside RTCM, and why bytes were skipped.
kinds() {
    "$bin/rtcm_scan" --ubx "$data/ublox-f9p-rtcm.bin" >"$work/out" 2>"$work/err"
    check "rtcm_scan --ubx: nothing is said" "$(cat "$work/err")" ""
    check "rtcm_scan --ubx: RTCM" "$(grep -c '  RTCM  ' "$work/out")" 15
    check "rtcm_scan --ubx: UBX" "$(grep -c '   UBX    [0-9a-f][0-9a-f] [0-9a-f][0-9a-f]$' "$work/out")" 14
    check "rtcm_scan --ubx: the sum" "$(grep -c 'every byte is accounted for$' "$work/out")" 1
    skipped=$(sed -n 's/^  skipped  *//p' "$work/out")
    reasons=$(sed -n 's/^    [nb].*[^0-9]\([0-9][0-9]*\)$/\1/p' "$work/out" | paste -s -d + -)
    check "rtcm_scan --ubx: the reasons make what is skipped" "$(($reasons))" "$skipped"
    check "rtcm_scan: RTCM alone" "$("$bin/rtcm_scan" "$data/ublox-f9p-rtcm.bin" | grep -c '   UBX  ')" 0
}

# How many bytes the list has in a line of its closing counts.
counted() { sed -n "s/^ *$1  *\([0-9]*\).*/\1/p" "$work/err" | head -n 1; }

# Of each recording: every frame is written, what is written is frames alone, and with the list every byte is accounted for.
salvage_recordings() {
    for name in rtcm3-1.bin rtcm3-3.bin rtcm3.bndm.bin rtcm3.bin ublox-f9p-rtcm.bin testglo.rtcm3; do
        "$bin/rtcm_salvage" "$data/$name" >"$work/out" 2>"$work/err"
        check "rtcm_salvage $name: the sum" "$(grep -c 'every byte is accounted for$' "$work/err")" 1
        given=$(counted 'given up')
        check "rtcm_salvage $name: size" "$(wc -c <"$work/out")" "$(($(wc -c <"$data/$name") - given))"
        listed=$(sed -n 's/^ *[0-9][0-9]*  *\([0-9]*\)  .*/\1/p' "$work/err" | paste -s -d + - | sed 's/^$/0/')
        check "rtcm_salvage $name: the rows make what is given up" "$(($listed))" "$given"
        "$bin/rtcm_scan" --quiet "$work/out" >"$work/scanned" 2>/dev/null
        check "rtcm_salvage $name: frames alone" "$(grep -c '^  skipped                    0$' "$work/scanned")" 1
    done
}

# A recording that is cut off inside a false candidate, which hides three good frames; and an unfinished one behind them.
salvage_cut() {
    cut=$crates/rtcm_salvage/data/cut.bin
    "$bin/rtcm_salvage" --list "$work/list" "$cut" >"$work/out" 2>"$work/err"
    check "rtcm_salvage: nothing is said beside the list" "$(cat "$work/err")" ""
    check "rtcm_salvage: all frames" "$(cmp "$work/out" "$crates/rtcm_salvage/stdout" && echo same)" same
    cat >"$work/expected" <<END
$cut
       place       bytes  given up as
           0           3  not D3
         313           1  bad check
         314           6  not D3
         320           1  unfinished candidate
         321           2  not D3
         528           1  unfinished candidate
         529           4  not D3
  bytes                    533
  frames fed                 2
    bytes                  310
  frames salvaged            3
    bytes                  205
  given up                  18
    not D3                  15
    bad check                1
    unfinished               2
  sum                      533  every byte is accounted for
END
    check "rtcm_salvage: the list" "$(diff "$work/list" "$work/expected")" ""
    "$bin/rtcm_salvage" --salvaged - <"$cut" >"$work/out" 2>"$work/err"
    check "rtcm_salvage: salvaged alone" "$(tail -c 205 "$crates/rtcm_salvage/stdout" | cmp "$work/out" - && echo same)" same
    check "rtcm_salvage: the list on standard error" "$(tail -n +2 "$work/err" | diff - "$work/list" | grep -c '^[<>]')" 1
}

salvage_options() {
    check "rtcm_salvage --version" "$("$bin/rtcm_salvage" --version)" "rtcm_salvage $version"
    check "rtcm_salvage -h is --help" "$("$bin/rtcm_salvage" -h)" "$("$bin/rtcm_salvage" --help)"
    check "rtcm_salvage --help tells of the status" "$("$bin/rtcm_salvage" --help | grep -c 'exit status is always 0')" 1
    "$bin/rtcm_salvage" --help >/dev/full 2>"$work/err"
    check "rtcm_salvage: a help text that cannot be written is failure" "$(last_line)" "rtcm_salvage: failed"
    for words in "--no-such --nor-this $1" "" "$1 $1" "--list" "$1 --list" "$work/missing" "--list $work/none/list $1"; do
        # shellcheck disable=SC2086
        "$bin/rtcm_salvage" $words >"$work/out" 2>"$work/err"
        check "rtcm_salvage $words: is failure" "$(last_line)" "rtcm_salvage: failed"
        check "rtcm_salvage $words: nothing is written" "$(wc -c <"$work/out")" 0
    done
    "$bin/rtcm_salvage" --no-such --nor-this "$1" >"$work/out" 2>"$work/err"
    check "rtcm_salvage: the first of two wrong options is named" "$(grep -c 'no such option: --no-such ' "$work/err")" 1
    "$bin/rtcm_salvage" --list /dev/full "$1" >"$work/out" 2>"$work/err"
    check "rtcm_salvage, full list: said" "$(grep -c '^list: ' "$work/err")" 1
    check "rtcm_salvage, full list: last line" "$(last_line)" "rtcm_salvage: failed"
    (cd "$work" && cp "$1" ./--list && "$bin/rtcm_salvage" -- --list >out 2>err)
    check "rtcm_salvage: a file behind --" "$(head -n 1 "$work/err")" "--list"
}

observations=$crates/rtcm_observations/data/observations.bin
sent=$crates/rtcm_compare/data/sent.bin
received=$crates/rtcm_compare/data/received.bin
head -c 65537 /dev/zero >"$work/long"

slow_pipe rtcm_scan "$data/rtcm3.bin" 46 ' 1029$'
slow_pipe rtcm_biases "$data/rtcm3.bndm.bin" 1300 'message 1230 at byte 1145'
slow_pipe rtcm_observations "$observations" 43 'message 1001 at byte 0'
no_output rtcm_scan "$data/rtcm3-3.bin" "$data/rtcm3-3.bin"
no_output rtcm_biases "$data/rtcm3.bndm.bin" "$data/rtcm3.bndm.bin"
no_output rtcm_observations "$observations" "$observations"
no_output rtcm_why "$data/rtcm3.bin" 0
no_output rtcm_compare "$sent" "$received"
choked_output rtcm_scan "$data/rtcm3-3.bin" "$data/rtcm3-3.bin"
choked_output rtcm_biases "$data/rtcm3.bndm.bin" "$data/rtcm3.bndm.bin"
choked_output rtcm_observations "$observations" "$observations"
choked_output rtcm_why "$data/rtcm3.bin" 0
choked_output rtcm_compare "$sent" "$received"
options rtcm_scan "$data/rtcm3-3.bin"
options rtcm_biases "$data/rtcm3.bndm.bin"
options rtcm_observations "$observations"
options rtcm_why "$data/rtcm3.bin" 0
options rtcm_compare "$sent" "$received"
recordings rtcm_scan "$data/rtcm3-3.bin"
recordings rtcm_biases "$data/rtcm3.bndm.bin"
recordings rtcm_observations "$observations"
two_words rtcm_why "$data/rtcm3.bin" 0
two_words rtcm_compare "$sent" "$received"
refusals
no_output rtcm_compare "$work/zeros" "$work/others"
warnings
kinds
no_output rtcm_salvage "$data/rtcm3-3.bin"
choked_output rtcm_salvage "$data/rtcm3-3.bin"
salvage_options "$data/rtcm3-3.bin"
salvage_recordings
salvage_cut

echo "programs: $passed checks, $failed failed"
[ "$failed" -eq 0 ]
