#!/usr/bin/env bash
# Times `ebc asm` and `ebc list` beside GNU as and objdump -d (Debian's package binutils), on sources of up to 1 MiB and images of up to 4 MiB.
#
# A source has instructions of many forms, labels, names and data. That of GNU as is for x86-64 and has as many lines, with as
# many labels and names of the same kinds. An image is code with a relocation for each 64 bytes, whose target has a label; objdump
# lists an object for x86-64 with as many bytes of code and instructions of the same kinds, and prints no relocation.
# shellcheck source=bench/lib.sh
. "$(dirname -- "${BASH_SOURCE[0]}")/lib.sh"
need python3 as objdump
ebc=$(program ebc)

# A source of so many bytes at most, and one for GNU as with as many lines.
source_of() {
  units=$(python "$1" <<'PYTHON'
import sys
from inputs import *

limit = int(sys.argv[1])

def ebc(k):
    return [f'L{k}: MOVIqd R1, {k}', 'MOVqw R2, @R0(+1,+16)', f'ADD64 R1, R2 {k % 1000}', 'PUSH64 R1', 'MOVqw @R3(+0,+8), R1',
            f'CMPI64wlte R1, {k % 1000}', f'JMP8cs M{k}', f'MOVIqq R4, L{k // 2}', f'CALL32 L{k}', f'M{k}: SHL64 R1, R2',
            f'MOVRELd R5, M{k}', 'MOVdw R6, @R5  ; the count', 'POP64 R2', 'RET', '.data', f'.dd {k}, 0x{k:08x}', f'.dq L{k}', '.code']

def x86(k):
    return [f'L{k}: mov ${k}, %rcx', 'mov 16(%rsp), %rdx', f'lea {k % 1000}(%rcx,%rdx), %rcx', 'push %rcx', 'mov %rcx, 8(%rbx)',
            f'cmp ${k % 1000}, %rcx', f'jle M{k}', f'movabs $L{k // 2}, %rsi', f'call L{k}', f'M{k}: shl %cl, %rdx',
            f'lea M{k}(%rip), %rdi', 'mov (%rdi), %eax  # the count', 'pop %rdx', 'ret', '.data', f'.long {k}, 0x{k:08x}',
            f'.quad L{k}', '.text']

lines, others, size, k = [], [], 0, 0
while True:
    more = ebc(k)
    size += sum(len(line) + 1 for line in more)
    if size > limit:
        break
    lines += more
    others += x86(k)
    k += 1
write('code.asm', lines)
write('code.s', others)
print(len(lines))
PYTHON
  )
}

# An image that takes so many bytes of memory, seven eighths of them code, and an object for x86-64 with as much code.
image_of() {
  units=$(python "$1" <<'PYTHON'
import sys
from inputs import *

# 64 bytes of code from a place on: the first instruction has the relocation.
def code_at(place):
    return (b'\xf7\x34' + u64(0x10000 + place) + b'\x60\x82\x41\x10' + b'\xcc\x21' + u16(place) + b'\x6b\x01'
            + b'\x77\x37\x05\x00' + b'\x6e\x05\xff\xff' + b'\xc2\x02' + b'\x32\x85' + b'\x1f\xd6'
            + b'\xb9\x05' + u32(place) + b'\x83\x2c\x01\x00\x00\x10' + b'\x60\x00\x02\x10'
            + b'\x4c\x21' + b'\x57\x21' + b'\x6c\x02' + b'\x04\x00' + b'\x00\x00' * 3)

count = int(sys.argv[1]) * 7 // 8 // 64
code = b''.join(code_at(0x1000 + 64 * k) for k in range(count))
relocs = blocks([0x1002 + 64 * k for k in range(count)])
at = 0x1000 + -(-len(code) // 0x1000) * 0x1000
write('code.efi', image([(b'.text', 0x1000, code, CODE), (b'.reloc', at, relocs, DATA)], (at, len(relocs))))

# 64 bytes of code for x86-64, the first instruction with a relocation.
lines = []
for k in range(count):
    lines += ['movabs $outside, %rsi', 'mov 16(%rsp), %rdx', f'lea {k % 1000 + 200}(%rcx,%rdx), %rcx', 'push %rcx', 'mov $5, %eax',
              'cmp $-1, %rcx', 'jle 1f', '1: mov (%rbx), %rcx', 'mov (%rcx), %eax', f'lea {k}(%rip), %rdi', 'call *8(%rsi)',
              'add $16, %rsp', 'add %rdx, %rcx', 'pop %rdx', 'ret', '.p2align 6, 0x90']
write('lines.s', lines)
print(len(code))
PYTHON
  )
  as lines.s -o code.o
}

echo RET >small.asm
: >small.s
as small.s -o small.o
cp "$top/examples/driver/driver.efi" small.efi
inputs() { source_of "$1"; }
right() { "$ebc" asm code.asm code.obj && as code.s -o other.o; }
ours=("$ebc" asm code.asm code.obj) ours_start=("$ebc" asm small.asm small.obj)
peer=(as code.s -o other.o) peer_start=(as small.s -o other.o)
series asm lines 65536 'GNU as'
inputs() { image_of "$1"; }
right() { "$ebc" list code.efi >/dev/null && objdump -d code.o >/dev/null; }
ours=("$ebc" list code.efi) ours_start=("$ebc" list small.efi)
peer=(objdump -d code.o) peer_start=(objdump -d small.o)
series list 'bytes of code' 262144 objdump
