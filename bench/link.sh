#!/usr/bin/env bash
# Times `ebc link` beside GNU ld (Debian's package binutils) on objects with the same bytes, symbols and relocations, of three kinds: many
# objects, up to 256 of 15 KiB, each with 250 definitions, 250 names of another object, 250 addresses and 250 distances; one object of up to
# 47,000 addresses, the limit of its file; and up to 256 objects, each with one definition that all others use. GNU ld resolves and relocates
# for x86-64, and writes no relocations.
# shellcheck source=bench/lib.sh
. "$(dirname -- "${BASH_SOURCE[0]}")/lib.sh"
need python3 as ld
ebc=$(program ebc)

# Objects of a kind as 0.obj and on, and as sources for x86-64, 0.s and on, and their plan.
inputs() {
  rm -f -- *.obj *.s *.o
  python "$kind" "$1" <<'PYTHON'
import struct, sys
from inputs import *

kind, count = sys.argv[1], int(sys.argv[2])

def save(number, size, definitions, others, fixups):
    """An object of so many bytes of code: definitions by name and offset, names of others, and fixups by kind, offset and symbol."""
    names = [name for name, _ in definitions] + others
    symbols = b''.join(struct.pack('<B', len(n)) + n.encode() + struct.pack('<BBI', 1, 1, at) for n, at in definitions)
    symbols += b''.join(struct.pack('<B', len(n)) + n.encode() + struct.pack('<BBI', 0, 0, 0) for n in others)
    table = b''.join(struct.pack('<BBIII', 1, 5 if wide else 3, at, s, 0 if wide else at + 4) for wide, at, s in fixups)
    write(f'{number}.obj', b'EBCO' + struct.pack('<IIIII', 1, size, 0, len(names), len(fixups)) + bytes(size) + symbols + table)
    lines, at, labels = ['.text'] + [f'.globl {n}' for n, _ in definitions], 0, sorted((at, n) for n, at in definitions)
    for wide, place, symbol in fixups + [(None, size, None)]:
        while labels and labels[0][0] <= place:
            where, name = labels.pop(0)
            lines += [f'.zero {where - at}', f'{name}:']
            at = where
        lines.append(f'.zero {place - at}')
        at = place
        if wide is not None:
            lines.append(f'.quad {names[symbol]}' if wide else f'.long {names[symbol]} - . - 4')
            at += 8 if wide else 4
    write(f'{number}.s', lines)

objects = 1 if kind == 'one' else count
for k in range(objects):
    if kind == 'many':
        own = [(f'global_{k}_{j}', 60 * j) for j in range(250)]
        others = [f'global_{(k + 1) % count}_{j}' for j in range(250)]
        fixups = [f for j in range(250) for f in ((True, 60 * j + 8, j), (False, 60 * j + 40, 250 + (7 * j) % 250))]
        save(k, 15360, own, others, fixups)
    elif kind == 'one':
        save(k, 8 * count, [('global_0_0', 0)], [], [(True, 8 * j, 0) for j in range(count)])
    else:
        others = [f'global_{j}_0' for j in range(count) if j != k]
        save(k, 2048, [(f'global_{k}_0', 0)], others, [(False, 8 * j, 1 + j) for j in range(len(others))])
names = ', '.join(f'"{k}.obj"' for k in range(objects))
write('plan', [f'objects = [{names}]', 'entry = "global_0_0"', 'subsystem = 11', 'base = 65536'])
PYTHON
  local source
  for source in *.s; do as --no-warn --64 -o "${source%.s}.o" "$source"; done
  seq -f %g.o 0 $(($(printf '%s\n' *.s | wc -l) - 1)) >names
  units=$(cat -- *.obj | wc -c)
}
right() { "$ebc" link plan image && "${peer[@]}"; }

ours=("$ebc" link plan image)
peer=(ld -m elf_x86_64 -static --entry global_0_0 -Ttext=0x11000 -o image.elf @names)
kind=many
series 'link with its start, many objects' 'bytes of objects' 16 'GNU ld'
kind=one
series 'link with its start, one object' 'bytes of objects' 2937 'GNU ld'
kind=shared
series 'link with its start, shared names' 'bytes of objects' 16 'GNU ld'
