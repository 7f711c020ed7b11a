#!/usr/bin/env bash
# Runs targets of the Makefile one after the other: tests/tools/parts.sh TARGET...
#
# The script ends with a table of the wall time and the processor time of each target, and counts
# those that passed. The first target that fails ends the script. The processor time leaves out
# processes for which nobody waits, such as some of a browser.
set -euo pipefail
cd "$(dirname "$0")/../.."
room=$(mktemp -d)
passed=0 failed=0

end() {
    printf '\nSeconds  Of one processor  Part, on %s processors\n' "$(nproc)"
    cat "$room/table"
    echo "$passed passed, $failed failed"
    rm -r "$room"
}
: > "$room/table"
trap end EXIT

# make_part TARGET: makes the target, and writes its row of the table. Each part has a shell of its
# own, so the times of the shell's commands are those of the part.
make_part() {
    local status=0 spent
    SECONDS=0
    "${MAKE:-make}" --no-print-directory "$1" || status=$?
    # A pipe could not read the times, since it would run `times` in another shell.
    times > "$room/times"
    spent=$(awk -F '[ms ]+' 'NR == 2 { print int(60 * $1 + $2 + 60 * $3 + $4) }' "$room/times")
    printf '%7d  %16d  %s\n' "$SECONDS" "$spent" "$1" >> "$room/table"
    return "$status"
}

for target; do
    failed=1
    (make_part "$target")
    passed=$((passed + 1)) failed=0
done
