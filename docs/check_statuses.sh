#!/usr/bin/env bash
# Runs the built mvcc_tool in each way in which it ends with a status of its own (docs/SCRIPTS.md has them), and compares the
# status and what is written. Silent where all is as it should be; prints what differs, and ends with 1, where it is not.
set -u
cd "$(dirname "${BASH_SOURCE[0]}")/.." || exit 1
tool=crates/mvcc_tool/out/mvcc_tool
[ -x "$tool" ] || { echo "check_statuses.sh: $tool is not built, so nothing was run" >&2; exit 1; }
made=$(mktemp -d)
trap 'rm -rf "$made"' EXIT
failed=0

# check NAME STATUS TEXT: what the last run ended with, and what it wrote to $made/out
check() {
    local status=$?
    [ "$status" = "$2" ] || { echo "$1: status $status, not $2" >&2; failed=1; }
    [ "$(cat "$made/out")" = "$3" ] || { echo "$1: wrote other than: $3" >&2; failed=1; }
}

one_put='put k=a ts=1 v=x'
printf '%s\n' "$one_put" >"$made/short"
{ cat "$made/short"; head -c 1048576 /dev/zero | tr '\0' '#'; } >"$made/long"

"$tool" run <"$made/short" >"$made/out"
check 'a script' 0 ok

for words in '' 'walk' 'run --stats --stats' 'run --count-max 0' 'run --count-max'; do
    # shellcheck disable=SC2086
    { "$tool" $words >"$made/out" 2>"$made/err"; } <"$made/short"
    check "the words '$words'" 2 ''
    [ "$(wc -l <"$made/err")" = 1 ] || { echo "the words '$words': not one line to standard error" >&2; failed=1; }
done
{ "$tool" walk >"$made/out" 2>"$made/err"; cat >"$made/left"; } <"$made/short"
cmp -s "$made/short" "$made/left" || { echo 'words without a reading: the script was read' >&2; failed=1; }

"$tool" run <"$made" >"$made/out" 2>/dev/null
check 'a folder as the script' 3 ''

: >"$made/out"
"$tool" run <"$made/short" >/dev/full 2>/dev/null
check 'a full device' 4 ''

"$tool" run <"$made/long" >"$made/out" 2>/dev/null
check 'a script that is too long' 5 ok

exit "$failed"
