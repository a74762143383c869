#!/bin/sh
# Compares libpeerivolt.a with rtcm-rs, built from its own source. README.md says what is run.
#
#   run.sh              everything: compare, differences, the recorded answers
#   run.sh compare [SEED [PART]] | differences [PAGE] | record FILE | bench
#   run.sh build          builds the comparison and says where it is
#   run.sh rust-archive   builds target/release/librtcm_rust.a, for the benchmark
#
# Where cargo, tinyvec or the source is missing, it says so and ends with 0; a source that RTCM_RS_SOURCE names and that
# is not there ends it with 1.
set -eu

folder=$(cd "$(dirname "$0")" && pwd)
root=$(dirname "$folder")
caller=$(pwd)

# A path that the caller gave, from the folder where the caller stands.
absolute() {
    case $1 in
    /*) echo "$1" ;;
    *) echo "$caller/$1" ;;
    esac
}

named=${RTCM_RS_SOURCE:-}
RTCM_RS_SOURCE=$(absolute "${named:-$root/../shared/docs/src}")
PEERIVOLT_ARCHIVE=$(absolute "${PEERIVOLT_ARCHIVE:-$root/crates/peerivolt/out/libpeerivolt.a}")
export RTCM_RS_SOURCE PEERIVOLT_ARCHIVE
if [ -n "${RECORDINGS:-}" ]; then
    RECORDINGS=$(absolute "$RECORDINGS")
    export RECORDINGS
fi

skipped() {
    echo "differential: SKIPPED, nothing was compared with the Rust: $1"
    exit 0
}

if [ ! -f "$RTCM_RS_SOURCE/src/lib.rs" ] && [ ! -f "$RTCM_RS_SOURCE/lib.rs" ]; then
    if [ -n "$named" ]; then
        echo "differential: no source of rtcm-rs in $RTCM_RS_SOURCE, which was named" >&2
        exit 1
    fi
    skipped "no source of rtcm-rs in $RTCM_RS_SOURCE (set RTCM_RS_SOURCE)"
fi
command -v cargo >/dev/null 2>&1 || skipped "cargo is missing (of Rust 1.82 or later)"
ls -d /usr/share/cargo/registry/tinyvec-1.* >/dev/null 2>&1 ||
    skipped "tinyvec is missing (on Debian: apt-get install librust-tinyvec-dev)"

if [ "${1:-}" = rust-archive ]; then
    cd "$folder"
    cargo build --quiet --release --offline -p rtcm-c
    echo "${CARGO_TARGET_DIR:-$folder/target}/release/librtcm_rust.a"
    exit 0
fi

if [ ! -f "$PEERIVOLT_ARCHIVE" ]; then
    echo "differential: $PEERIVOLT_ARCHIVE is missing (build the library, or set PEERIVOLT_ARCHIVE)" >&2
    exit 1
fi

(cd "$folder" && cargo build --quiet --release --offline)
program=${CARGO_TARGET_DIR:-$folder/target}/release/differential

if [ "${1:-}" = build ]; then
    echo "$program"
    exit 0
fi
if [ $# -gt 0 ]; then
    exec "$program" "$@"
fi

"$program" compare
"$program" differences
answers=$(mktemp)
trap 'rm -f "$answers"' EXIT
"$program" record "$answers"
if ! cmp "$answers" "$root/c/data/answers.hex"; then
    echo "differential: c/data/answers.hex is not what the Rust answers (run.sh record c/data/answers.hex)" >&2
    exit 1
fi
