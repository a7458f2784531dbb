#!/bin/sh
# Builds the copy with each slip in turn. The comparison must find each; it stops where one stays hidden.
# slips.sh [--dumps | --books | --late | --practice | --panel] [CASES]: with an option the slips that the comparison with it must find.
cd "$(dirname "$0")" || exit 2
only=
case ${1-} in
--*)
    only=$1
    shift
    ;;
esac
cases=${1:-20000}
tried=0

# FILE: what the comparison shrank the case to, where it does that
shrunk() {
    if grep -q '^SHRUNK' "$1"; then
        echo ", shrunk to $(sed -n '/^SHRUNK/,$p' "$1" | grep -c '^  vehicle') vehicle(s)"
    fi
}

# LIST OPTION: the slips of a list, found by the comparison with this option
try_all() {
    [ -z "$only" ] || [ "$only" = "$2" ] || return 0
    for slip in $(sed -n 's/^ *"\([a-z-]*\)",$/\1/p; s/^ *("\([a-z-]*\)", change.*/\1/p; s/^ *slip("\([a-z-]*\)",.*/\1/p' "$1"); do
        SLIP=$slip SITE_ARCHIVE='' cargo build -q -j1 --offline --release --target-dir target/slips --bin compare || exit 2
        # shellcheck disable=SC2086
        target/slips/release/compare $2 --cases "$cases" >"target/slips/$slip.txt"
        status=$?
        if [ "$status" -eq 0 ]; then
            echo "$slip: NOT FOUND in $cases cases"
            exit 1
        fi
        # A difference has status 1; with any other nothing was compared.
        [ "$status" -eq 1 ] || exit 2
        echo "$slip: $(sed -n 's/^DIFFERENCE in \(case [0-9]*\).*/found in \1/p' "target/slips/$slip.txt")$(shrunk "target/slips/$slip.txt")"
        tried=$((tried + 1))
    done
}

try_all original/slips.rs ''
try_all slipped/call_slips.rs ''
try_all slipped/dump_slips.rs --dumps
try_all slipped/book_slips.rs --books
try_all slipped/late_slips.rs --late
try_all slipped/practice_slips.rs --practice
try_all slipped/panel_slips.rs --panel
if [ "$tried" -eq 0 ]; then
    echo "there are no slips for $only" >&2
    exit 2
fi
