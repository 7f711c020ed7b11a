#!/usr/bin/env bash
# The two schedules that are too large to lie here: limits.sh fault-too-long | lockreplay replay
#
#   fault-too-long         1,048,577 bytes, one more than a schedule may have
#   fault-too-many-moves   65,537 moves, one more than a schedule may have
#
# SPDX-License-Identifier: Apache-2.0 OR MIT
set -euo pipefail

case "${1-}" in
fault-too-long)
    # A header of 22 bytes, and one comment line that fills the rest.
    echo 'lock ticket threads 1'
    printf '%01048555d' 0 | tr 0 '#'
    ;;
fault-too-many-moves)
    # A thread draws its ticket behind another that never enters, and polls for ever.
    printf '%s\n' '# TooManyMoves: the last line is one move too many.' 'lock ticket threads 2'
    printf '%s\n' '0 acquire' '0 add' '1 acquire' '1 add'
    printf '1 read\n%.0s' {1..65533}
    ;;
*)
    sed -n '2,5s/^# \{0,1\}//p' "$0" >&2
    exit 2
    ;;
esac
