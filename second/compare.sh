#!/bin/sh
# Compares a replay program with the second implementation, on the stored scripts
# and on scripts made anew from seeds.
#
#   second/compare.sh [REPLAY] [SEED ..]
#
# REPLAY is the path of the program (crates/replay/out/replay if none is given). A word
# that is all digits is a seed. STEPS in the environment is the length of a fresh
# script (3000 if it is not set).

LC_ALL=C
export LC_ALL
here=$(cd "$(dirname "$0")" && pwd) || exit 2
replay=$here/../crates/replay/out/replay
seeds=
for word in "$@"; do
    case $word in
        *[!0-9]*) replay=$word ;;
        *) seeds="$seeds $word" ;;
    esac
done
second=$here/target/release/second
cargo build --release --quiet --manifest-path "$here/Cargo.toml" || exit 2
if ! [ -x "$replay" ]; then
    echo "$replay is no program" >&2
    exit 2
fi

work=$(mktemp -d) || exit 2
trap 'rm -rf "$work"' EXIT
passed=0
failed=0

# The first line in which two outputs differ, with the line of the script.
difference() {
    number=$(awk 'NR == FNR { wanted[FNR] = $0; count = FNR; next }
        FNR > count || $0 != wanted[FNR] { print FNR; found = 1; exit }
        END { if (!found) print (NR == FNR ? 0 : FNR) + 1 }' "$2" "$3")
    [ -s "$2" ] || number=1
    awk -v wanted="$number" '{ text = $0; gsub(/\r/, " "); sub(/#.*/, "") }
        NF && ++count == wanted { print "  script line " NR ": " text }' "$1"
    echo "  answer $number wanted: $(sed -n "${number}p" "$2")"
    echo "  answer $number given:  $(sed -n "${number}p" "$3")"
}

# What is wrong with the end of a run: its status and its standard error.
ending() {
    if [ -f "$1" ]; then
        [ "$2" -eq 1 ] || echo "  ended with status $2, not 1"
        [ "$(wc -l <"$3")" -eq 1 ] || echo "  not one line on standard error"
        case $(head -n 1 "$3") in
            "$(cat "$1"): "?*) ;;
            *) echo "  wanted on standard error: $(cat "$1"): .." ;;
        esac
    else
        [ "$2" -eq 0 ] || echo "  ended with status $2: $(head -n 1 "$3")"
        [ "$2" -ne 0 ] || [ ! -s "$3" ] || echo "  standard error is not empty"
    fi
}

# Runs one program on one script, against its answers; prints what is wrong.
check() {
    "$1" ${2:+"$2"} <"$3.script" >"$work/out" 2>"$work/err"
    status=$?
    cmp -s "$3.answers" "$work/out" || difference "$3.script" "$3.answers" "$work/out"
    ending "$3.error" "$status" "$work/err"
}

compare() {
    {
        check "$second" replay "$1" | sed 's/^  /  second: /'
        case $replay in
            */second) check "$replay" replay "$1" ;;
            *) check "$replay" "" "$1" ;;
        esac
    } >"$work/wrong"
    if [ -s "$work/wrong" ]; then
        echo "differs: $2"
        cat "$work/wrong"
        failed=$((failed + 1))
    else
        echo "same: $2"
        passed=$((passed + 1))
    fi
}

for script in "$here"/scripts/*.script; do
    compare "${script%.script}" "$(basename "$script")"
done
for seed in $seeds; do
    "$second" make "$seed" "${STEPS:-3000}" "$work" || exit 2
    compare "$work/$seed" "seed $seed"
done
echo "$passed passed, $failed failed"
[ "$failed" -eq 0 ]
