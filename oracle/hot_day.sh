#!/bin/sh
# Request 13 on generated pairs of caps: a counterexample on each copy whose slip breaks the law, and none on the original and on those whose slip keeps it.
cd "$(dirname "$0")" || exit 2
pairs=${1:-1000000}

# SLIP STATUS: 1 where a counterexample must be found
try() {
    SLIP=$1 SITE_ARCHIVE='' cargo build -q -j1 --offline --release --target-dir target/slips --bin hot_day || exit 2
    found=$(target/slips/release/hot_day --slipped --cases "$pairs")
    status=$?
    echo "${1:-the original}: $(echo "$found" | head -n 1)"
    [ "$status" -eq "$2" ] || exit 1
}

try '' 0
try caps-after-the-average 0
try larger-for-the-smaller 0
try split-at-the-cap 1
try peak-at-the-start 1
try energy-by-power 1
