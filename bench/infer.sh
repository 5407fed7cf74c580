#!/usr/bin/env bash
# Times `ebc infer IMAGE NOTES` beside `ebc check` of the result, on up to 256 KiB of code in functions of 64 instructions with a loop each;
# and alone on one function of up to 16,384 jumps, each to a place of its own. There the jumps are a chain, in which each leads to the next,
# or a fan, in which all are passed on one way and each leads to a number and a RET.
# shellcheck source=bench/lib.sh
. "$(dirname -- "${BASH_SOURCE[0]}")/lib.sh"
need python3
ebc=$(program ebc)

# The image and the notes of a code of a kind.
inputs() {
  units=$(python "$kind" "$1" <<'PYTHON'
import sys
from inputs import *

kind, count = sys.argv[1], int(sys.argv[2])
ret, compared = b'\x04\x00', b'\x77\x36\x00\x00\x6d\x06\x00\x00'

# MOVIqw R6, 0; 60 moves; CMPI64weq R6, 0; JMP8cs to the first move; RET
def loops(n):
    one = compared[:4] + b'\x77\x34\x05\x00' * 60 + compared[4:] + b'\xc2\x85' + ret
    notes = [line for k in range(n) for line in function(f'f{k}', 0x1000 + len(one) * k, 0x1000 + len(one) * (k + 1))]
    return one * n, notes, 64 * n

def chain(n):
    code = b'\x02\x00' * n + ret
    return code, function('f0', 0x1000, 0x1000 + len(code)), n + 1

def fan(n):
    code = compared + (b'\x81\xd0' + u32(6 * n - 4)) * n + ret + (b'\x77\x34\x05\x00' + ret) * n
    return code, function('f0', 0x1000, 0x1000 + len(code)), 3 * n + 3

code, notes, instructions = {'loops': loops, 'chain': chain, 'fan': fan}[kind](count)
write('code.efi', code_image(code))
write('code.notes', ['version = 1', 'entry = "f0"', *notes])
print(instructions)
PYTHON
  )
  "$ebc" infer code.efi code.notes >points || die "no points of $kind $1"
  cat code.notes points >whole.notes
}
# (the notes with 16,384 points are past the limit of notes)
right() { [ ${#peer[@]} = 0 ] || [ "$("$ebc" check code.efi whole.notes)" = neutral ]; }

kind=chain
inputs 0
cp code.efi small.efi
cp whole.notes small.notes
ours=("$ebc" infer code.efi code.notes) ours_start=("$ebc" infer small.efi small.notes)
peer=("$ebc" check code.efi whole.notes) peer_start=("$ebc" check small.efi small.notes)
kind=loops
series 'infer, loops' instructions 65 'check of its result'
peer=() peer_start=()
kind=chain
series 'infer, a chain of jumps' instructions 1024
kind=fan
series 'infer, a fan of jumps' instructions 1024
