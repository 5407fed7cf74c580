#!/usr/bin/env bash
# Times `ebc check IMAGE NOTES` on one function of relocated moves that each name the last of the static objects, with up to as many static
# objects as notes of 1 MiB have room for. The moves are as many in each row, so the growth is what a static object adds to the others.
# shellcheck source=bench/lib.sh
. "$(dirname -- "${BASH_SOURCE[0]}")/lib.sh"
need python3
ebc=$(program ebc)

# MOVIqq R4, the place of the last static object; so often as fits 256 KiB of code, and RET.
statics() {
  python "$@" <<'PYTHON'
import sys
from inputs import *

count, moves, name = int(sys.argv[1]), int(sys.argv[2]), sys.argv[3]
first = 0x1000 + -(-(10 * moves + 2) // 0x1000) * 0x1000
last = first + 8 * (count - 1)
code = (b'\xf7\x34' + u64(0x10000 + last)) * moves + b'\x04\x00'
relocs = blocks([0x1000 + 10 * k + 2 for k in range(moves)])
after = -(-(first + 8 * count) // 0x1000) * 0x1000
write(f'{name}.efi', image([(b'.text', 0x1000, code, CODE), (b'.data', first, bytes(8 * count), DATA), (b'.reloc', after, relocs, 0x42000040)],
                           relocs=(after, len(relocs))))
lines = ['version = 1', 'entry = "main"', '[[shape]]', 'name = "C"', 'size = [0, 8]', 'fields = ["a 0 0 i8"]']
for k in range(count):
    lines += ['[[static]]', f'place = {first + 8 * k}', 'shape = "C"', 'count = 1']
write(f'{name}.notes', [*lines, *function('main', 0x1000, 0x1000 + len(code))])
PYTHON
  units=$1
}
inputs() { statics "$1" 26213 code; }
right() { [ "$("$ebc" check code.efi code.notes)" = neutral ]; }

statics 1 1 small
ours=("$ebc" check code.efi code.notes) ours_start=("$ebc" check small.efi small.notes)
series 'check, relocated moves' 'static objects' 1250
