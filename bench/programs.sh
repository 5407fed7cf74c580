#!/usr/bin/env bash
# Times the programs beside `ebc`, and `ebc pair`, on inputs that grow: notes with labels of functions that each call the next, the warnings of
# one function of moves, a trace of a loop at both widths, the steps of a pair of that loop, and the binds of as many methods.
# shellcheck source=bench/lib.sh
. "$(dirname -- "${BASH_SOURCE[0]}")/lib.sh"
need python3
ebc=$(program ebc) notes=$(program ebc_notes) lint=$(program ebc_lint) trace=$(program ebc_trace)

# The files of a kind, under a name.
files() {
  python "$@" <<'PYTHON'
import sys
from inputs import *

kind, count, name = sys.argv[1], int(sys.argv[2]), sys.argv[3]
if kind == 'labels':
    source, labels = ['.global f0'], []
    for k in range(count):
        source += [f'f{k}:', f'  CALL32 f{k + 1}' if k + 1 < count else '  MOVIqw R7, 0', '  RET']
        labels += ['[[function]]', f'name = "f{k}"', 'result = "any"']
    write(f'{name}.asm', source)
    write(f'{name}.labels', labels)
    write(f'{name}.plan', [f'objects = ["{name}.obj"]', 'entry = "f0"', 'subsystem = 11', 'base = 65536'])
elif kind == 'moves':
    code, lines = moves(count)
    write(f'{name}.efi', code_image(code))
    write(f'{name}.notes', lines)
elif kind == 'loop':
    code = b'\x77\x32\x01\x00\xb9\x03' + u32(0x100 - 10) + b'\xb7\x35' + u32(count // 6) + b'\x4c\x21\x20\xb4\x4c\x14\x20\x4b\x45\x51\x82\xfa\x04\x00'
    write(f'{name}.efi', code_image(code.ljust(0x200, b'\0'), 0xE0000020))
    write(f'{name}.notes', ['version = 1', 'entry = "main"', *function('main', 0x1000, 0x1000 + len(code))])
else:
    code = b'\x04\x00' * (count + 1)
    methods = [f'"m{k} {k} 0 method:M{k}"' for k in range(count)]
    a = ['version = 1', 'entry = "main"', *function('main', 0x1000, 0x1002)]
    b = ['version = 1', 'entry = "main"', *function('main', 0x1000, 0x1002)]
    binds = ['version = 1']
    for k in range(count):
        a += ['[[signature]]', f'name = "s{k}"', f'method = "M{k}"', 'params = []', 'result = "none"']
        b += [*function(f'f{k}', 0x1002 + 2 * k, 0x1004 + 2 * k), 'enter = true', 'params = []']
        binds += ['[[bind]]', f'method = "M{k}"', f'function = "f{k}"']
    write(f'{name}.efi', code_image(code))
    write(f'{name}.a', a)
    write(f'{name}.b', b)
    write(f'{name}.binds', binds)
PYTHON
  units=$2
}
ends_well() { "${ours[@]}" >/dev/null 2>&1; }
right() { ends_well; }
printf 'version = 1\n' | tee none.script >none.binds

kind=labels
inputs() { files labels "$1" large && "$ebc" asm large.asm large.obj; }
files labels 1 small
"$ebc" asm small.asm small.obj
ours=("$notes" large.plan large.labels) ours_start=("$notes" small.plan small.labels)
series 'ebc_notes, functions' functions 256

inputs() { files moves "$1" large; }
files moves 1 small
ours=("$lint" large.efi large.notes) ours_start=("$lint" small.efi small.notes)
series 'ebc_lint, moves' instructions 4096

inputs() { files loop "$1" large && ours=("$trace" both large.efi large.notes none.script 1 "$1"); }
files loop 6 small
ours_start=("$trace" both small.efi small.notes none.script 1 6)
series 'ebc_trace both' steps 6000

inputs() { files loop "$1" large && ours=("$ebc" pair small.efi small.notes none.script large.efi large.notes none.script none.binds 100000); }
ours_start=("$ebc" pair small.efi small.notes none.script small.efi small.notes none.script none.binds 100000)
series 'pair, a loop' steps 6000

inputs() { files binds "$1" large; }
files binds 1 small
ours=("$ebc" pair large.efi large.a none.script large.efi large.b none.script large.binds 1000)
ours_start=("$ebc" pair small.efi small.a none.script small.efi small.b none.script small.binds 1000)
series 'pair, binds' binds 64
