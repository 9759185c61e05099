#!/bin/bash
# Seconds of a processor for COUNT instructions of a loop of four, the least and the middle of ROUNDS rounds: a plain C interpreter, of this
# folder, compiled with -O2 in the same run, the machine, through `Machine::step`, and a board, through `Board::run`. Short rounds find moments at
# which nothing else runs. No test, and no claim is made of it.
# usage: bench/machine/run.sh [COUNT [ROUNDS]]
set -eu
here=$(cd "$(dirname "$0")" && pwd)
count=${1:-20000000}
rounds=${2:-40}
work=$(mktemp -d)
trap 'rm -rf "$work"' EXIT
# The loop, from address 18 on: ldr r1, [sp, #0]; adds r0, r0, r1; cmp r0, r2; bne back. SP is moved below the base first, and 7 is stored there.
python3 - "$work" <<'PY'
import struct, sys
halves = [0xb082, 0x2107, 0x9100, 0x9900, 0x1840, 0x4290, 0xd1fb]
image = struct.pack("<III", 0x20003f80, 13, 1) + b"".join(struct.pack("<H", h) for h in halves)
open(sys.argv[1] + "/image", "wb").write(image)
PY
"${CC:-cc}" -O2 -o "$work/interpreter" "$here/interpreter.c"
program() { "$here/../program.sh" "$work/$1" "$here/$1.txt" "${@:2}"; }
machine=$(program main "armv6m_machine anyhow" sts_base thumb_code armv6m_machine)
board=$(program board "sts_base tool_io board_ports event_script board_run anyhow" sts_base buffered_stream thumb_code board_services board_world \
    class_world tool_io board_ports bank_model armv6m_machine board_outside arena_heap fiber_queues message_bus fiber_pool fiber_runtime thumb_layout thumb_switch fork_on_block board_drivers event_script board_run)
TIMEFORMAT=%U
timed() { { time "${@:2}" >/dev/null; } 2>>"$work/$1.seconds"; }
for _ in $(seq "$rounds"); do
    timed c "$work/interpreter" "$work/image" "$count"
    timed machine "$machine" "$count" "$work/image"
    timed board "$board" "$count" "$work/image"
done
for one in c machine board; do
    sort -n "$work/$one.seconds" | awk -v n="$count" -v what="$one" '{ s[NR] = $1 }
        END { printf "%-8s least %.3f s, middle %.3f s: at best %.1f million instructions a second\n", what, s[1], s[int((NR + 1) / 2)], n / s[1] / 1e6 }'
done
