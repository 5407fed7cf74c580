#!/usr/bin/env bash
# Runs each command on the largest input that it takes, of the kind that costs it most, and prints a table of the seconds of the processor and
# of the memory that it takes at most. Ends with status 1 if a command takes more than LIMIT seconds, 2 if left out, or if it isn't answered as
# it should be.
# shellcheck source=bench/lib.sh
. "$(dirname -- "${BASH_SOURCE[0]}")/lib.sh"
need python3
limit=${LIMIT:-2} failed=0
ebc=$(program ebc) notes=$(program ebc_notes) places=$(program ebc_places) lint=$(program ebc_lint) trace=$(program ebc_trace)

python <<'PYTHON'
import struct
from inputs import *

KEYS = 'version = 1\nentry = "main"\n'

def noted(name, lines): write(name, (KEYS + '\n'.join([*lines, ''])).encode())

def main(code, need='[0, 0]', params=''):
    return ['[[function]]', 'name = "main"', 'place = 4096', f'end = {0x1000 + len(code)}', 'level = 0', f'need = {need}', 'result = "any"', params]

# A source of labels and jumps of 1 MiB, and one whose last line is wrong.
lines = [f'l{k:05}: JMP32 l{k + 1:05}' for k in range(47600)] + ['l47600: RET']
write('jumps.asm', lines)
write('wrong.asm', lines[:-1] + ['l47600: JMP32 R0('])

# One function of as many moves as code may have, whose last instruction reads what isn't known.
code = b'\x20\x54' * 131070 + b'\x04\x00'
write('code.bin', b'\x77\x34\x05\x00' * 65535 + b'\xff\xff')
bad = code[:-4] + b'\x20\xd4' + b'\x04\x00'
write('moves.efi', code_image(code))
write('bad.efi', code_image(bad))
noted('moves.notes', main(code))
# The same among 15,000 sections.
sections = [(b'.text', 0x1000, bad, CODE)] + [(b'.data', 0x100000 + 16 * k, b'\1' * 16, DATA) for k in range(15000)]
write('sections.efi', image(sections, align=16, unit=16))
write('listed.efi', image([(b'.text', 0x1000 + 32 * k, b'\x77\x34\x05\x00' * 7 + b'\x04\x00', CODE) for k in range(16000)], align=16, unit=16))
write('zeros.efi', image([(b'.text', 0x1000, bytes(4190208), CODE)]))
write('chain.efi', code_image(b'\x02\x00' * 16384 + b'\x04\x00'))
noted('chain.notes', main(b'\x02\x00' * 16384 + b'\x04\x00'))

# As many static objects as notes have room for, of which the last two overlap.
SHAPE = ['[[shape]]', 'name = "C"', 'size = [0, 8]', 'fields = ["a 0 0 i8"]']
def statics(first, count, last):
    at = [first + 8 * k for k in range(count - 1)] + [last]
    return 'static = [' + ', '.join(f'{{place = {p}, shape = "C", count = 1}}' for p in at) + ']'
room = image([(b'.text', 0x1000, b'\x04\x00', CODE), (b'.data', 0x2000, bytes(0x40000), DATA)])
write('room.efi', room)
write('overlap.notes', (KEYS + statics(0x2000, 24000, 0x2000 + 8 * 23998 + 4) + '\n' + '\n'.join(SHAPE + main(b'\x04\x00'))).encode())

# 2,800 calls, each with sixteen pointers to the last of 16,000 static objects. R5 is the table, R4 the object.
first, count, calls = 0x40000, 16000, 2800
one = b'\x35\x04' * 16 + b'\x83\x2d' + u32(0) + b'\x60\x00' + u16(0x3010)
begin = b'\x72\x85' + u16(0x1041) + b'\xb9\x04'
code = begin + u32(first + 8 * (count - 1) - 0x1000 - len(begin) - 4) + one * calls + b'\x04\x00'
sites = [0x1000 + len(begin) + 4 + len(one) * k + 32 for k in range(calls)]
write('calls.efi', image([(b'.text', 0x1000, code, CODE), (b'.data', first, bytes(8 * count), DATA)]))
text = [statics(first, count, first + 8 * (count - 1)), 'site = [' + ', '.join(f'{{place = {p}, signature = "s"}}' for p in sites) + ']', *SHAPE,
        '[[shape]]', 'name = "T"', 'size = [1, 0]', 'fields = ["m 0 0 method:M"]',
        '[[signature]]', 'name = "s"', 'method = "M"', 'params = [' + ', '.join(['"n ptr"'] * 16) + ']', 'result = "none"']
noted('calls.notes', [*text, *main(code, '[16, 0]', 'params = ["n handle", "n ptr:T"]')])
call = ['[[call]]', 'signature = "s"', 'args = [' + ', '.join([f'"ptr {count - 1} 0"'] * 16) + ']', 'result = "any"']
write('calls.script', ['version = 1', f'args = ["handle 0", "ptr {count} 0"]', '[[object]]', 'shape = "T"', 'count = 1', 'cells = ["0 m method M"]'] +
      call * calls)

# The loop of the machine's bench, which goes on for 10,000,000 steps.
loop = b'\x77\x32\x01\x00\xb9\x03' + u32(0x100 - 10) + b'\xb7\x35' + u32(2000000) + b'\x4c\x21\x20\xb4\x4c\x14\x20\x4b\x45\x51\x82\xfa\x04\x00'
write('loop.efi', code_image(loop.ljust(0x200, b'\0'), 0xE0000020))
noted('loop.notes', main(loop))
write('none.script', ['version = 1'])
write('none.binds', ['version = 1'])

# An option ROM of 32,768 images, and one of an image of nearly 4 MiB.
header = struct.pack('<HHIHHH', 0xAA55, 1, 0x0EF1, 11, 0x0EBC, 0).ljust(22, b'\0') + struct.pack('<HH', 56, 28)
def rom(last): return (header.ljust(28, b'\0') + b'PCIR' + struct.pack('<HHHHB3sHHBB', 1, 1, 0, 28, 3, b'\0\0\0', 1, 0, 3, 0x80 if last else 0)).ljust(512, b'\0')
write('images.rom', rom(False) * 32767 + rom(True))

# A plan with an object of 16,384 jumps, and labels for them.
write('chain.asm', ['.global main', 'main:'] + [f'l{k}: JMP8 l{k + 1}' for k in range(16384)] + ['l16384: RET'])
write('chain.plan', ['objects = ["chain.obj"]', 'entry = "main"', 'subsystem = 11', 'base = 65536'])
write('chain.labels', ['[[function]]', 'name = "main"', 'result = "any"'])
PYTHON
"$ebc" asm chain.asm chain.obj

# What words take, with the status that they are to end with.
row() {
  local took most found name=$1 status=$2
  shift 2
  read -r took most found < <(python "$@" <<'PYTHON'
import resource, subprocess, sys
status = subprocess.run(sys.argv[1:], stdout=open('said', 'w'), stderr=subprocess.STDOUT, stdin=subprocess.DEVNULL).returncode
used = resource.getrusage(resource.RUSAGE_CHILDREN)
print(f'{used.ru_utime + used.ru_stime:.2f} {used.ru_maxrss / 1024:.0f}', status)
PYTHON
  )
  printf '| `%s %s` | %s | %s | %s |\n' "${1##*/}" "$2" "$name" "$took" "$most"
  [ "$found" = "$status" ] || { echo "worst.sh: ${1##*/} ${*:2} ends with $found, not $status: $(head -c 200 said)" >&2; failed=1; }
  awk "BEGIN { exit !($took > $limit) }" && { echo "worst.sh: ${1##*/} ${*:2} takes more than $limit seconds" >&2; failed=1; }
  return 0
}

printf '| Command | Input | s | MB |\n|---|---|---|---|\n'
row '1 MiB of jumps to labels' 0 "$ebc" asm jumps.asm jumps.obj
row 'the same, with a fault in its last line' 3 "$ebc" asm wrong.asm wrong.obj
row 'raw code of 256 KiB, with a fault at its end' 1 "$ebc" check code.bin
row '131,071 moves' 0 "$ebc" check moves.efi moves.notes
row '131,070 moves, refused at the last' 1 "$ebc" check bad.efi moves.notes
row 'the same, among 15,000 sections' 1 "$ebc" check sections.efi moves.notes
row '24,000 static objects, the last two overlapping' 1 "$ebc" check room.efi overlap.notes
row 'the same' 1 "$ebc" infer room.efi overlap.notes
row '16,384 jumps, each to the next' 0 "$ebc" infer chain.efi chain.notes
row '131,070 moves, refused at the last, among 15,000 sections' 1 "$ebc" infer sections.efi moves.notes
row '4 MiB of zeros' 0 "$ebc" list zeros.efi
row '16,000 sections' 0 "$ebc" list listed.efi
row '2,800 calls with 16 pointers, over 16,000 static objects' 0 "$ebc" run 64 calls.efi calls.notes calls.script 10000000
row 'the same' 0 "$ebc" twin calls.efi calls.notes calls.script 10000000
row '10,000,000 steps' 0 "$ebc" run 64 loop.efi loop.notes none.script 10000000
row '10,000,000 steps' 0 "$ebc" twin loop.efi loop.notes none.script 10000000
row '100,000 steps' 0 "$ebc" pair loop.efi loop.notes none.script loop.efi loop.notes none.script none.binds 100000
row '4,096 programs' 0 "$ebc" sample 4096
row '32,768 images' 0 "$ebc" rom list images.rom
row 'an image of 4 MiB' 0 "$ebc" rom wrap 0001 0001 zeros.efi zeros.rom
row '32,768 images' 0 "$ebc" rom take images.rom 32767 taken.efi
row '4 MiB of zeros' 0 "$places" zeros.efi
row '16,384 jumps, each to the next' 0 "$notes" chain.plan chain.labels
row '131,071 moves' 0 "$lint" moves.efi moves.notes
row '200,000 steps of 10,000,000' 0 "$trace" both loop.efi loop.notes none.script 9800001 10000000
exit "$failed"
