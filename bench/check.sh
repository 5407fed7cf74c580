#!/usr/bin/env bash
# Times `ebc check IMAGE NOTES` beside wasm-validate (Debian's package wabt) on as many bytes of code: functions that each call the next,
# whose notes are longer than their code, and one function of moves, up to the 256 KiB of code that notes may have. The reading of image
# and notes counts, and that of the module. A last series counts the starts of both, too, on functions with 475 KB of notes at the end.
# shellcheck source=bench/lib.sh
. "$(dirname -- "${BASH_SOURCE[0]}")/lib.sh"
need python3 wasm-validate wat2wasm
ebc=$(program ebc)

# The image, the notes and the module of a code of a kind, whose name the files have.
code() {
  units=$(python "$@" <<'PYTHON'
import sys
from inputs import *

kind, count, name = sys.argv[1], int(sys.argv[2]), sys.argv[3]

def module(size):
    if kind == 'moves':
        return '(module (func (local i32)\n' + 'i32.const 5 local.set 0\n' * (size // 4) + '))'
    functions, used, adds = [], 0, int(kind)
    while used < size:
        k = len(functions)
        functions.append(f'(func (result i64) call {k + 1}' + f' i64.const {k} i64.add' * adds + ')')
        used += (6 if k < 127 else 7) + (3 if k < 64 else 4) * adds
    return '(module\n' + '\n'.join(functions) + f'\n(func (result i64) i64.const {len(functions)}))'

code, notes = moves(count) if kind == 'moves' else calls(count, int(kind))
write(f'{name}.efi', code_image(code))
write(f'{name}.notes', notes)
write(f'{name}.wat', module(len(code)).encode())
print(len(code))
PYTHON
  )
  wat2wasm "$3.wat" -o "$3.wasm"
}
inputs() { code "$kind" "$1" code; }
right() { [ "$("$ebc" check code.efi code.notes)" = neutral ] && wasm-validate code.wasm; }

code moves 1 small
echo '(module)' >small.wat
wat2wasm small.wat -o small.wasm
ours=("$ebc" check code.efi code.notes) ours_start=("$ebc" check small.efi small.notes)
peer=(wasm-validate code.wasm) peer_start=(wasm-validate small.wasm)
kind=1
series 'check, functions of 14 bytes' 'bytes of code' 256 wasm-validate
kind=9
series 'check, functions of 62 bytes' 'bytes of code' 256 wasm-validate
kind=moves
series 'check, moves' 'bytes of code' 4096 wasm-validate
ours_start=() peer_start=()
kind=1
series 'check with its start, functions of 14 bytes' 'bytes of code' 256 wasm-validate
