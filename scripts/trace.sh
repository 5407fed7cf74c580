#!/usr/bin/env bash
# Rows of the program `ebc_trace`: runs, and what is printed of their steps, with its status. What a row wants is worked out by hand from
# docs/TRACE.md, docs/MACHINE.md, docs/ENCODING.md and docs/HOST.md.
#
# Prints the name of each row that differs, and below it the lines that differ: `<` is wanted. Ends with status 1 if there was one. EBC and
# EBC_TRACE name the programs, by default the scripts of bin/.
set -u
top=$(CDPATH='' cd -- "$(dirname -- "${BASH_SOURCE[0]}")/.." >/dev/null && pwd -P)
EBC=$(realpath -e -- "${EBC:-$top/bin/ebc}") && EBC_TRACE=$(realpath -e -- "${EBC_TRACE:-$top/bin/ebc_trace}") || exit 1
room=$(mktemp -d) || exit 1
trap 'rm -rf "$room"' EXIT
cd "$room" || exit 1
failed=0
fail() { printf 'trace: %s\n' "$*"; failed=1; }

# ---- rows

# The row of this name: the words of `ebc_trace`, which have to end with this status and print what stands on standard input; what is
# printed goes through an edit first.
edited() {
  { cat; echo "status $3"; } >wanted
  { "$EBC_TRACE" "${@:4}" 2>said; echo "status $?"; } | sed "$1" >found
  cmp -s wanted found || fail "$2"$'\n'"$(diff wanted found | head -n 12)"
}
# The same without the lines of the state at the end, and with them.
row() { edited '/^state$/,/^\(32 \)\?end /{/^\(32 \)\?end /!d}' "$@"; }
whole() { edited '' "$@"; }
line() { row "$1" "$2" "${@:4}" <<<"$3"; }

# Lines that stand in words, with bars between them.
lines() { printf '%s\n' "$@" | sed 's/ *| */\n/g'; }
# The image of such a source, whose entry is `main`, and notes that have `main` from 0x1000 up to this place alone.
built() {
  lines '.global main' "$1" >i.asm
  printf 'objects = ["i.obj"]\nentry = "main"\nsubsystem = 11\nbase = 65536\n' >i.plan
  lines 'version = 1' 'entry = "main"' '[[function]]' 'name = "main"' 'place = 0x1000' "end = $2" 'level = 0' 'need = [0, 0]' \
    'result = "any"' >i.notes
  echo 'version = 1' >i.script
  { "$EBC" asm i.asm i.obj >built 2>&1 && "$EBC" link i.plan i.efi >built 2>&1; } || fail "$1"$'\n'"$(cat built)"
}
# The whole run of such a source at a width or at both, with its status if that isn't 0.
of() {
  built "$1" "$2"
  row "$1" "${4:-0}" "$3" i.efi i.notes i.script 1 1000
}

cp "$top"/examples/driver/driver.{efi,notes,script} .
driver() { row "$1" 0 "$2" driver.efi driver.notes "${5:-driver.script}" "$3" "$4"; }

# ---- the driver, whole
#
# The native area begins at 0x100000 or at 0x200000000, and takes 16 bytes for each of 1,029 things and 16 more. The stack comes next: nine
# times 32 or 48 bytes and 16 more. Then the image, 0x3000 bytes and 16 more, and the two objects of the script.

driver 'the driver at 32' 32 1 1000 <<'.'
step 1 00001000 main+0x0 MOVRELd R7, 4090
  R7 0000000000106190 image+0x2000
step 2 00001006 main+0x6 BREAK 5
  store 0000000000106190 image+0x2000 40001000
step 3 00001008 main+0x8 MOVnw R4, @R0(+1,+16)
  R4 00000000001071a0 ptr 0 0
step 4 0000100c main+0xc MOVqw R0, R0(-1,-0)
  R0 0000000000104164 stack+0x104
step 5 00001010 main+0x10 MOVqw R5, R0
  R5 0000000000104164 stack+0x104
step 6 00001012 main+0x12 PUSHn R5
  R0 0000000000104160 stack+0x100
  store 0000000000104160 stack+0x100 64411000
step 7 00001014 main+0x14 CALL32EXa @R4
step 8 00001016 main+0x16
  call 00001014 locate out
step 9 00001016 main+0x16
  reply 0 status ok 0
  R7 0000000000000000
step 10 00001016 main+0x16 MOVqw R0, R0(+1,+0)
  R0 0000000000104164 stack+0x104
step 11 0000101a main+0x1a MOVsnw R5, R7
  R5 0000000000000000
step 12 0000101c main+0x1c CMPI64wlte R5, -1
step 13 00001020 main+0x20 JMP8cs 14
step 14 00001022 main+0x22 MOVnw R5, @R0
  R5 00000000001071c0 ptr 1 0
step 15 00001024 main+0x24 MOVdw R6, @R5
step 16 00001026 main+0x26 MOVRELd R5, 4052
  R5 0000000000106190 image+0x2000
step 17 0000102c main+0x2c PUSHn @R5
  R0 0000000000104160 stack+0x100
  store 0000000000104160 stack+0x100 40001000
step 18 0000102e main+0x2e MOVnw R4, @R0(+3,+16)
step 19 00001032 main+0x32 CALL32EXa @R4(+1,+0)
step 20 00001038 main+0x38
  call 00001032 register entry tick
step 21 00001038 main+0x38
  enter tick int 1
  R0 000000000010414c stack+0xec
step 22 00001044 tick+0x0 MOVIqw R7, 0
step 23 00001048 tick+0x4 RET
  R0 000000000010415c stack+0xfc
step 24 gate
  return tick status ok 0
  R0 0000000000104160 stack+0x100
step 25 00001038 main+0x38
  enter tick int 2
  R0 000000000010414c stack+0xec
step 26 00001044 tick+0x0 MOVIqw R7, 0
step 27 00001048 tick+0x4 RET
  R0 000000000010415c stack+0xfc
step 28 gate
  return tick status ok 0
  R0 0000000000104160 stack+0x100
step 29 00001038 main+0x38
  reply 1 status ok 0
step 30 00001038 main+0x38 MOVqw R0, R0(+2,+0)
  R0 0000000000104168 stack+0x108
step 31 0000103c main+0x3c RET
  R0 0000000000104178 stack+0x118
step 32 gate
  R0 0000000000104180
  R4 0000000000000000
  R5 0000000000000000
end 32 gate finished status ok 0
.
driver 'the driver at 64' 64 1 1000 <<'.'
step 1 00001000 main+0x0 MOVRELd R7, 4090
  R7 0000000200006220 image+0x2000
step 2 00001006 main+0x6 BREAK 5
  store 0000000200006220 image+0x2000 4000000002000000
step 3 00001008 main+0x8 MOVnw R4, @R0(+1,+16)
  R4 0000000200007230 ptr 0 0
step 4 0000100c main+0xc MOVqw R0, R0(-1,-0)
  R0 00000002000041e8 stack+0x188
step 5 00001010 main+0x10 MOVqw R5, R0
  R5 00000002000041e8 stack+0x188
step 6 00001012 main+0x12 PUSHn R5
  R0 00000002000041e0 stack+0x180
  store 00000002000041e0 stack+0x180 e841000002000000
step 7 00001014 main+0x14 CALL32EXa @R4
step 8 00001016 main+0x16
  call 00001014 locate out
step 9 00001016 main+0x16
  reply 0 status ok 0
  R7 0000000000000000
step 10 00001016 main+0x16 MOVqw R0, R0(+1,+0)
  R0 00000002000041e8 stack+0x188
step 11 0000101a main+0x1a MOVsnw R5, R7
  R5 0000000000000000
step 12 0000101c main+0x1c CMPI64wlte R5, -1
step 13 00001020 main+0x20 JMP8cs 14
step 14 00001022 main+0x22 MOVnw R5, @R0
  R5 0000000200007250 ptr 1 0
step 15 00001024 main+0x24 MOVdw R6, @R5
step 16 00001026 main+0x26 MOVRELd R5, 4052
  R5 0000000200006220 image+0x2000
step 17 0000102c main+0x2c PUSHn @R5
  R0 00000002000041e0 stack+0x180
  store 00000002000041e0 stack+0x180 4000000002000000
step 18 0000102e main+0x2e MOVnw R4, @R0(+3,+16)
step 19 00001032 main+0x32 CALL32EXa @R4(+1,+0)
step 20 00001038 main+0x38
  call 00001032 register entry tick
step 21 00001038 main+0x38
  enter tick int 1
  R0 00000002000041c8 stack+0x168
step 22 00001044 tick+0x0 MOVIqw R7, 0
step 23 00001048 tick+0x4 RET
  R0 00000002000041d8 stack+0x178
step 24 gate
  return tick status ok 0
  R0 00000002000041e0 stack+0x180
step 25 00001038 main+0x38
  enter tick int 2
  R0 00000002000041c8 stack+0x168
step 26 00001044 tick+0x0 MOVIqw R7, 0
step 27 00001048 tick+0x4 RET
  R0 00000002000041d8 stack+0x178
step 28 gate
  return tick status ok 0
  R0 00000002000041e0 stack+0x180
step 29 00001038 main+0x38
  reply 1 status ok 0
step 30 00001038 main+0x38 MOVqw R0, R0(+2,+0)
  R0 00000002000041f0 stack+0x190
step 31 0000103c main+0x3c RET
  R0 0000000200004200 stack+0x1a0
step 32 gate
  R0 0000000200004210
  R4 0000000000000000
  R5 0000000000000000
end 32 gate finished status ok 0
.

# ---- the state at the end
#
# The thunk cell holds at first 0x1044 less 0x2004 in four bytes, and then the address of the thunk.

state() { whole "$1" 0 "$2" driver.efi driver.notes "${4:-driver.script}" "$3" "$3"; }
state 'the state in a callback, at 32' 32 22 <<'.'
step 22 00001044 tick+0x0 MOVIqw R7, 0
state
  R0 000000000010414c stack+0xec
  R1 0000000000000000
  R2 0000000000000000
  R3 0000000000000000
  R4 00000000001071a0 ptr 0 0
  R5 0000000000106190 image+0x2000
  R6 0000000000000000
  R7 0000000000000000
  ip 00000000001051d8 tick+0x4
  C 0
  entered tick 00000000001051c8 main+0x38
  called 1 register
  entered main 0000000000100000 gate
  bytes 0000000000106190 image+0x2000 ..001000........................
end 22 00001048 running
.
state 'the state in a callback, at 64' 64 22 <<'.'
step 22 00001044 tick+0x0 MOVIqw R7, 0
state
  R0 00000002000041c8 stack+0x168
  R1 0000000000000000
  R2 0000000000000000
  R3 0000000000000000
  R4 0000000200007230 ptr 0 0
  R5 0000000200006220 image+0x2000
  R6 0000000000000000
  R7 0000000000000000
  ip 0000000200005268 tick+0x4
  C 0
  entered tick 0000000200005258 main+0x38
  called 1 register
  entered main 0000000200000000 gate
  bytes 0000000200006220 image+0x2000 ..00000002......................
end 22 00001048 running
.
state 'a native call that is asked for' 32 7 <<'.'
step 7 00001014 main+0x14 CALL32EXa @R4
state
  R0 0000000000104160 stack+0x100
  R1 0000000000000000
  R2 0000000000000000
  R3 0000000000000000
  R4 00000000001071a0 ptr 0 0
  R5 0000000000104164 stack+0x104
  R6 0000000000000000
  R7 0000000000106190 image+0x2000
  ip 00000000001051a6 main+0x16
  C 0
  asked 00001014
  entered main 0000000000100000 gate
  bytes 0000000000106190 image+0x2000 ..001000........................
end 7 00001016 running
.
state 'before anything has changed' 32 1 <<'.'
step 1 00001000 main+0x0 MOVRELd R7, 4090
  R7 0000000000106190 image+0x2000
state
  R0 0000000000104168 stack+0x108
  R1 0000000000000000
  R2 0000000000000000
  R3 0000000000000000
  R4 0000000000000000
  R5 0000000000000000
  R6 0000000000000000
  R7 0000000000106190 image+0x2000
  ip 0000000000105196 main+0x6
  C 0
  entered main 0000000000100000 gate
end 1 00001006 running
.
state 'once the run is over' 32 32 <<'.'
step 32 gate
  R0 0000000000104180
  R4 0000000000000000
  R5 0000000000000000
state
  R0 0000000000104180
  R1 0000000000000000
  R2 0000000000000000
  R3 0000000000000000
  R4 0000000000000000
  R5 0000000000000000
  R6 0000000000000000
  R7 0000000000000000
  ip 0000000000100000 gate
  C 0
  bytes 0000000000106190 image+0x2000 ..001000........................
end 32 gate finished status ok 0
.

# ---- a part of a run

driver 'a part' 64 8 9 <<'.'
step 8 00001016 main+0x16
  call 00001014 locate out
step 9 00001016 main+0x16
  reply 0 status ok 0
  R7 0000000000000000
end 9 00001016 running
.
driver 'the last step alone' 64 32 32 <<'.'
step 32 gate
  R0 0000000200004210
  R4 0000000000000000
  R5 0000000000000000
end 32 gate finished status ok 0
.
driver 'past the end' 32 33 10000000 <<<'end 32 gate finished status ok 0'

# ---- what the firmware does

sed '/^# Register/,$d' driver.script >short.script
driver 'script end' 64 19 1000 short.script <<'.'
step 19 00001032 main+0x32 CALL32EXa @R4(+1,+0)
step 20 00001038 main+0x38
  call 00001032 register entry tick
end 20 00001038 script end
.
sed -e '/^out/d' -e '0,/status ok 0/s//status error 14/' driver.script >error.script
driver 'an error, which C tells and leaving takes back' 64 8 1000 error.script <<'.'
step 8 00001016 main+0x16
  call 00001014 locate out
step 9 00001016 main+0x16
  reply 0 status error 14
  R7 800000000000000e
step 10 00001016 main+0x16 MOVqw R0, R0(+1,+0)
  R0 00000002000041e8 stack+0x188
step 11 0000101a main+0x1a MOVsnw R5, R7
  R5 800000000000000e
step 12 0000101c main+0x1c CMPI64wlte R5, -1
  C 1
step 13 00001020 main+0x20 JMP8cs 14
step 14 0000103e main+0x3e MOVqw R0, R0(+1,+0)
  R0 00000002000041f0 stack+0x190
step 15 00001042 main+0x42 RET
  R0 0000000200004200 stack+0x1a0
step 16 gate
  R0 0000000200004210
  R4 0000000000000000
  R5 0000000000000000
  C 0
end 16 gate finished status error 14
.
{ sed 's/^version = 1/version = 2/' driver.script; printf '[[notify]]\nat = 2\nfunction = "tick"\nargs = ["int 7"]\n'; } >notified.script
driver 'a notification' 32 3 7 notified.script <<'.'
step 3 00001008 main+0x8
  notify tick int 7
  R0 0000000000104154 stack+0xf4
step 4 00001044 tick+0x0 MOVIqw R7, 0
  R7 0000000000000000
step 5 00001048 tick+0x4 RET
  R0 0000000000104164 stack+0x104
step 6 gate
  resume tick status ok 0
  R0 0000000000104168 stack+0x108
  R7 0000000000106190 image+0x2000
step 7 00001008 main+0x8 MOVnw R4, @R0(+1,+16)
  R4 00000000001071a0 ptr 0 0
end 7 0000100c running
.
state 'the state in a notification' 32 4 notified.script <<'.'
step 4 00001044 tick+0x0 MOVIqw R7, 0
  R7 0000000000000000
state
  R0 0000000000104154 stack+0xf4
  R1 0000000000000000
  R2 0000000000000000
  R3 0000000000000000
  R4 0000000000000000
  R5 0000000000000000
  R6 0000000000000000
  R7 0000000000000000
  ip 00000000001051d8 tick+0x4
  C 0
  notified tick 0000000000105198 main+0x8
  entered main 0000000000100000 gate
  bytes 0000000000106190 image+0x2000 ..001000........................
end 4 00001048 running
.
# In a callback: 18 instructions are done after step 22.
sed 's/^at = 2$/at = 18/' notified.script >nested.script
edited '/^  [RC]\|^  ip\|^state/d' 'a notification in a callback' 0 32 driver.efi driver.notes nested.script 23 23 <<'.'
step 23 00001048 tick+0x4
  notify tick int 7
  notified tick 00000000001051d8 tick+0x4
  entered tick 00000000001051c8 main+0x38
  called 1 register
  entered main 0000000000100000 gate
  bytes 0000000000106190 image+0x2000 ..001000........................
end 23 00001044 running
.
sed 's/"0 ptr 1 0"/"0 ptr 0 0"/' driver.script >wrong.script
driver 'a reply that does not fit' 32 8 1000 wrong.script <<'.'
step 8 00001016 main+0x16
  call 00001014 locate out
step 9 00001016 main+0x16
end 9 00001016 mismatch reply
.
sed '/^enter/d' driver.notes >unmarked.notes
row 'a thunk that is not made' 0 32 driver.efi unmarked.notes driver.script 1 1000 <<'.'
step 1 00001000 main+0x0 MOVRELd R7, 4090
  R7 0000000000106190 image+0x2000
step 2 00001006 main+0x6 BREAK 5
end 2 00001008 mismatch thunk
.

# ---- exceptions, and places outside the image
#
# The native area takes 16 bytes for each of 1,026 things and 16 more, and the stack nine times 16 and 16 more. So the stack ends at
# 0x1040c0 or 0x2000040c0, and R0 begins 16 bytes below.

of 'main: | MOVIqw R5, 5 | DIV64 R5, R4' 0x1006 64 <<'.'
step 1 00001000 main+0x0 MOVIqw R5, 5
  R5 0000000000000005
step 2 00001004 main+0x4 DIV64 R5, R4
end 2 00001004 raised divide_error
.
of 'main: | BREAK 3' 0x1002 32 <<'.'
step 1 00001000 main+0x0 BREAK 3
end 1 00001000 raised breakpoint
.
of 'main: | BREAK 2' 0x1002 64 <<'.'
step 1 00001000 main+0x0 BREAK 2
end 1 00001000 raised bad_break
.
of 'main: | MOVIqw R0, 0 | PUSHn R4' 0x1006 32 <<'.'
step 1 00001000 main+0x0 MOVIqw R0, 0
  R0 0000000000000000
step 2 00001004 main+0x4 PUSHn R4
end 2 00001004 raised stack_fault
.
of 'main: | MOVIqw R4, 1 | JMP32a R4' 0x1006 64 <<'.'
step 1 00001000 main+0x0 MOVIqw R4, 1
  R4 0000000000000001
step 2 00001004 main+0x4 JMP32a R4
end 2 00001004 raised alignment_check
.
of 'main: | MOVqw R5, @R4' 0x1002 32 <<'.'
step 1 00001000 main+0x0 MOVqw R5, @R4
end 1 00001000 raised memory_fault
.
of 'main: | .db 0x27, 0' 0x1002 32 <<'.'
step 1 00001000 main+0x0
end 1 00001000 raised invalid_opcode
.
of 'main: | .db 0x04, 1' 0x1002 64 <<'.'
step 1 00001000 main+0x0
end 1 00001000 raised instruction_encoding
.
of 'main: | MOVIqw R4, 2 | JMP32a R4' 0x1006 64 <<'.'
step 1 00001000 main+0x0 MOVIqw R4, 2
  R4 0000000000000002
step 2 00001004 main+0x4 JMP32a R4
step 3 wild 0000000000000002
end 3 wild 0000000000000002 raised memory_fault
.
of 'main: | MOVIqw @R0(-0,-16), 4 | MOVqw R4, R0(-0,-16) | JMP32a R4' 0x100c 32 <<'.'
step 1 00001000 main+0x0 MOVIqw @R0(-0,-16), 4
  store 00000000001040a0 stack+0x70 0400000000000000
step 2 00001006 main+0x6 MOVqw R4, R0(-0,-16)
  R4 00000000001040a0 stack+0x70
step 3 0000100a main+0xa JMP32a R4
step 4 wild 00000000001040a0 RET
  R0 00000000001040c0
step 5 gate
  R4 0000000000000000
end 5 gate finished any
.

# ---- what changes: C, registers, and stores of each size, of which the last goes to a function that the notes don't have

stores='main: | MOVIqw R1, 5 | CMPI64weq R1, 5 | CMPI64weq R1, 5 | CMPI64weq R1, 4 | MOVqw R2, R0(-0,-32) | MOVIbw @R2, 7 | MOVIww @R2, -1'
stores+=' | ADD32 @R2, R1 | MOVnw @R2, R0 | PUSH32 R1 | POP32 R3 | PUSH64 R1 | POP64 @R2 | PUSHn R1 | POPn R3 | LOADSP [FLAGS], R1'
stores+=' | STORESP R4, [FLAGS] | CALL32 f | RET | f: RET'
of "$stores" 0x1038 32 <<'.'
step 1 00001000 main+0x0 MOVIqw R1, 5
  R1 0000000000000005
step 2 00001004 main+0x4 CMPI64weq R1, 5
  C 1
step 3 00001008 main+0x8 CMPI64weq R1, 5
step 4 0000100c main+0xc CMPI64weq R1, 4
  C 0
step 5 00001010 main+0x10 MOVqw R2, R0(-0,-32)
  R2 0000000000104090 stack+0x60
step 6 00001014 main+0x14 MOVIbw @R2, 7
  store 0000000000104090 stack+0x60 07
step 7 00001018 main+0x18 MOVIww @R2, -1
  store 0000000000104090 stack+0x60 ffff
step 8 0000101c main+0x1c ADD32 @R2, R1
  store 0000000000104090 stack+0x60 04000100
step 9 0000101e main+0x1e MOVnw @R2, R0
  store 0000000000104090 stack+0x60 b0401000
step 10 00001020 main+0x20 PUSH32 R1
  R0 00000000001040ac stack+0x7c
  store 00000000001040ac stack+0x7c 05000000
step 11 00001022 main+0x22 POP32 R3
  R0 00000000001040b0 stack+0x80
  R3 0000000000000005
step 12 00001024 main+0x24 PUSH64 R1
  R0 00000000001040a8 stack+0x78
  store 00000000001040a8 stack+0x78 0500000000000000
step 13 00001026 main+0x26 POP64 @R2
  R0 00000000001040b0 stack+0x80
  store 0000000000104090 stack+0x60 0500000000000000
step 14 00001028 main+0x28 PUSHn R1
  R0 00000000001040ac stack+0x7c
  store 00000000001040ac stack+0x7c 05000000
step 15 0000102a main+0x2a POPn R3
  R0 00000000001040b0 stack+0x80
step 16 0000102c main+0x2c LOADSP [FLAGS], R1
  C 1
step 17 0000102e main+0x2e STORESP R4, [FLAGS]
  R4 0000000000000001
step 18 00001030 main+0x30 CALL32 2
  R0 00000000001040a0 stack+0x70
  store 00000000001040a0 stack+0x70 06511000000000000000000000000000
step 19 00001038 RET
  R0 00000000001040b0 stack+0x80
step 20 00001036 main+0x36 RET
  R0 00000000001040c0
step 21 gate
  R1 0000000000000000
  R2 0000000000000000
  R3 0000000000000000
  R4 0000000000000000
  C 0
end 21 gate finished any
.
of "$stores" 0x1038 64 <<'.'
step 1 00001000 main+0x0 MOVIqw R1, 5
  R1 0000000000000005
step 2 00001004 main+0x4 CMPI64weq R1, 5
  C 1
step 3 00001008 main+0x8 CMPI64weq R1, 5
step 4 0000100c main+0xc CMPI64weq R1, 4
  C 0
step 5 00001010 main+0x10 MOVqw R2, R0(-0,-32)
  R2 0000000200004090 stack+0x60
step 6 00001014 main+0x14 MOVIbw @R2, 7
  store 0000000200004090 stack+0x60 07
step 7 00001018 main+0x18 MOVIww @R2, -1
  store 0000000200004090 stack+0x60 ffff
step 8 0000101c main+0x1c ADD32 @R2, R1
  store 0000000200004090 stack+0x60 04000100
step 9 0000101e main+0x1e MOVnw @R2, R0
  store 0000000200004090 stack+0x60 b040000002000000
step 10 00001020 main+0x20 PUSH32 R1
  R0 00000002000040ac stack+0x7c
  store 00000002000040ac stack+0x7c 05000000
step 11 00001022 main+0x22 POP32 R3
  R0 00000002000040b0 stack+0x80
  R3 0000000000000005
step 12 00001024 main+0x24 PUSH64 R1
  R0 00000002000040a8 stack+0x78
  store 00000002000040a8 stack+0x78 0500000000000000
step 13 00001026 main+0x26 POP64 @R2
  R0 00000002000040b0 stack+0x80
  store 0000000200004090 stack+0x60 0500000000000000
step 14 00001028 main+0x28 PUSHn R1
  R0 00000002000040a8 stack+0x78
  store 00000002000040a8 stack+0x78 0500000000000000
step 15 0000102a main+0x2a POPn R3
  R0 00000002000040b0 stack+0x80
step 16 0000102c main+0x2c LOADSP [FLAGS], R1
  C 1
step 17 0000102e main+0x2e STORESP R4, [FLAGS]
  R4 0000000000000001
step 18 00001030 main+0x30 CALL32 2
  R0 00000002000040a0 stack+0x70
  store 00000002000040a0 stack+0x70 06510000020000000000000000000000
step 19 00001038 RET
  R0 00000002000040b0 stack+0x80
step 20 00001036 main+0x36 RET
  R0 00000002000040c0
step 21 gate
  R1 0000000000000000
  R2 0000000000000000
  R3 0000000000000000
  R4 0000000000000000
  C 0
end 21 gate finished any
.

# ---- CALLs that haven't returned
#
# The native area of this driver has 1,030 things, with a thunk of each function, and its stack nine times 44 or 56 bytes. So at 32 the
# stack begins at 0x104070, the image at 0x104210 and the object at 0x107220. At 64 these are 0x200004070, 0x200004280 and 0x200007290.
# The thunk of tick lies at 0x40 in the native area. Its cell holds at first 0x1024 less 0x2004.

lines '.global main' 'main: | MOVRELd R7, cell | BREAK 5 | MOVnw R4, @R0(+1,+16) | CALL32 sub | RET' \
  'sub: | MOVRELd R5, cell | PUSHn @R5 | CALL32EXa @R4 | MOVqw R0, R0(+1,+0) | RET' 'tick: | CALL32 inner | RET' \
  'inner: | MOVIqw R7, 0 | RET | .data | cell: .thunk tick' >calls.asm
printf 'objects = ["calls.obj"]\nentry = "main"\nsubsystem = 11\nbase = 65536\n' >calls.plan
part() { lines '[[function]]' "name = \"$1\"" "place = $2" "end = $3" "level = $4" 'need = [1, 16]' "params = [$5]" 'result = "any"'; }
{
  lines 'version = 1' 'entry = "main"'
  part main 0x1000 0x1014 1 '"n handle", "n ptr:Sys"'
  part sub 0x1014 0x1024 0 ''
  part tick 0x1024 0x102c 1 '"n int:0..4294967295"'
  echo 'enter = true'
  part inner 0x102c 0x1032 0 ''
  lines '[[shape]]' 'name = "Sys"' 'size = [1, 0]' 'fields = ["reg 0 0 method:Register"]'
  lines '[[signature]]' 'name = "register"' 'method = "Register"' 'params = ["n entry"]' 'result = "status"'
  lines '[[site]]' 'place = 0x101c' 'signature = "register"' '[[thunk]]' 'place = 0x2000' 'function = "tick"'
} | sed '/^params/{/\[]/d}' >calls.notes
{
  lines 'version = 1' 'args = ["handle 0", "ptr 0 0"]' '[[object]]' 'shape = "Sys"' 'count = 1' 'cells = ["0 reg method Register"]'
  lines '[[call]]' 'signature = "register"' 'args = ["entry tick"]' 'enter = ["tick int 1"]' 'result = "status ok 0"'
} >calls.script
{ "$EBC" asm calls.asm calls.obj >built 2>&1 && "$EBC" link calls.plan calls.efi >built 2>&1; } || fail "calls.asm"$'\n'"$(cat built)"

calls() { whole "$1" 0 "$2" calls.efi calls.notes calls.script "$3" "$3"; }
calls 'CALLs outside a callback and in it, at 32' 32 11 <<'.'
step 11 0000102c inner+0x0 MOVIqw R7, 0
  R7 0000000000000000
state
  R0 00000000001041ac stack+0x13c
  R1 0000000000000000
  R2 0000000000000000
  R3 0000000000000000
  R4 0000000000107220 ptr 0 0
  R5 0000000000106210 image+0x2000
  R6 0000000000000000
  R7 0000000000000000
  ip 0000000000105240 inner+0x4
  C 0
  back 000000000010523a tick+0x6
  entered tick 000000000010522e sub+0xa
  called 0 register
  back 0000000000105222 main+0x12
  entered main 0000000000100000 gate
  bytes 0000000000106210 image+0x2000 40001000........................
end 11 00001030 running
.
calls 'CALLs outside a callback and in it, at both' both 11 <<'.'
step 11 0000102c inner+0x0 MOVIqw R7, 0
  R7 0000000000000000
state
  32 R0 00000000001041ac stack+0x13c
  64 R0 0000000200004208 stack+0x198
  R1 0000000000000000
  R2 0000000000000000
  R3 0000000000000000
  32 R4 0000000000107220 ptr 0 0
  64 R4 0000000200007290 ptr 0 0
  32 R5 0000000000106210 image+0x2000
  64 R5 0000000200006280 image+0x2000
  R6 0000000000000000
  R7 0000000000000000
  32 ip 0000000000105240 inner+0x4
  64 ip 00000002000052b0 inner+0x4
  C 0
  32 back 000000000010523a tick+0x6
  64 back 00000002000052aa tick+0x6
  32 entered tick 000000000010522e sub+0xa
  64 entered tick 000000020000529e sub+0xa
  called 0 register
  32 back 0000000000105222 main+0x12
  64 back 0000000200005292 main+0x12
  32 entered main 0000000000100000 gate
  64 entered main 0000000200000000 gate
  32 bytes 0000000000106210 image+0x2000 40001000........................
  64 bytes 0000000200006280 image+0x2000 4000000002......................
end 11 00001030 running
.

# Of a state only what is open.
opened() { edited '/^step/d;/^  \(R[0-7]\|C\|ip\|store\|bytes\|return\) /d' "$1" 0 32 "${3:-calls}".efi "${3:-calls}".notes "${3:-calls}".script "$2" "$2"; }
opened 'once a CALL in a callback has returned' 12 <<'.'
state
  entered tick 000000000010522e sub+0xa
  called 0 register
  back 0000000000105222 main+0x12
  entered main 0000000000100000 gate
end 12 0000102a running
.
opened 'once a CALL outside a callback has returned' 17 <<'.'
state
  entered main 0000000000100000 gate
end 17 00001012 running
.
opened 'once the run with CALLs is over' 1000 <<'.'
state
end 19 gate finished any
.

# The image lies at 0x1040d0.
built 'main: | CALL32 f | RET | f: CALL32 g | RET | g: RET' 0x1008
opened 'a CALL in a CALL' 2 i <<'.'
state
  back 00000000001050de image+0x100e
  back 00000000001050d6 main+0x6
  entered main 0000000000100000 gate
end 2 00001010 running
.
opened 'the inner CALL has returned' 3 i <<'.'
state
  back 00000000001050d6 main+0x6
  entered main 0000000000100000 gate
end 3 0000100e running
.
built 'main: | CALL32 f | RET | f: MOVqw R0, R0(+0,+16) | RET' 0x1008
opened 'a return address that is dropped' 2 i <<'.'
state
  entered main 0000000000100000 gate
end 2 0000100c running
.
built 'main: | CALL32 f | g: RET | f: JMP32 g' 0x1008
opened 'a jump out of a CALL' 2 i <<'.'
state
  back 00000000001050d6 main+0x6
  entered main 0000000000100000 gate
end 2 00001006 running
.
built 'main: | CALL32EXa R4 | RET' 0x1004
opened 'a native call is no CALL within the image' 1 i <<'.'
state
  asked 00001000
  entered main 0000000000100000 gate
end 1 00001002 running
.

# ---- docs/HOST.md, "A run that parts"

built 'main: | MOVInw R4, (+1,+0) | CMPI64weq R4, 8 | JMP8cc -2 | RET' 0x100c
row 'a run that parts, at 32' 0 32 i.efi i.notes i.script 1 3 <<'.'
step 1 00001000 main+0x0 MOVInw R4, (+1,+0)
  R4 0000000000000004
step 2 00001004 main+0x4 CMPI64weq R4, 8
step 3 00001008 main+0x8 JMP8cc -2
end 3 00001006 running
.
row 'a run that parts, at 64' 0 64 i.efi i.notes i.script 1 3 <<'.'
step 1 00001000 main+0x0 MOVInw R4, (+1,+0)
  R4 0000000000000008
step 2 00001004 main+0x4 CMPI64weq R4, 8
  C 1
step 3 00001008 main+0x8 JMP8cc -2
end 3 0000100a running
.

# ---- both widths

driver 'the driver at both' both 1 1000 <<'.'
step 1 00001000 main+0x0 MOVRELd R7, 4090
  32 R7 0000000000106190 image+0x2000
  64 R7 0000000200006220 image+0x2000
step 2 00001006 main+0x6 BREAK 5
  32 store 0000000000106190 image+0x2000 40001000
  64 store 0000000200006220 image+0x2000 4000000002000000
step 3 00001008 main+0x8 MOVnw R4, @R0(+1,+16)
  32 R4 00000000001071a0 ptr 0 0
  64 R4 0000000200007230 ptr 0 0
step 4 0000100c main+0xc MOVqw R0, R0(-1,-0)
  32 R0 0000000000104164 stack+0x104
  64 R0 00000002000041e8 stack+0x188
step 5 00001010 main+0x10 MOVqw R5, R0
  32 R5 0000000000104164 stack+0x104
  64 R5 00000002000041e8 stack+0x188
step 6 00001012 main+0x12 PUSHn R5
  32 R0 0000000000104160 stack+0x100
  64 R0 00000002000041e0 stack+0x180
  32 store 0000000000104160 stack+0x100 64411000
  64 store 00000002000041e0 stack+0x180 e841000002000000
step 7 00001014 main+0x14 CALL32EXa @R4
step 8 00001016 main+0x16
  call 00001014 locate out
step 9 00001016 main+0x16
  reply 0 status ok 0
  R7 0000000000000000
step 10 00001016 main+0x16 MOVqw R0, R0(+1,+0)
  32 R0 0000000000104164 stack+0x104
  64 R0 00000002000041e8 stack+0x188
step 11 0000101a main+0x1a MOVsnw R5, R7
  R5 0000000000000000
step 12 0000101c main+0x1c CMPI64wlte R5, -1
step 13 00001020 main+0x20 JMP8cs 14
step 14 00001022 main+0x22 MOVnw R5, @R0
  32 R5 00000000001071c0 ptr 1 0
  64 R5 0000000200007250 ptr 1 0
step 15 00001024 main+0x24 MOVdw R6, @R5
step 16 00001026 main+0x26 MOVRELd R5, 4052
  32 R5 0000000000106190 image+0x2000
  64 R5 0000000200006220 image+0x2000
step 17 0000102c main+0x2c PUSHn @R5
  32 R0 0000000000104160 stack+0x100
  64 R0 00000002000041e0 stack+0x180
  32 store 0000000000104160 stack+0x100 40001000
  64 store 00000002000041e0 stack+0x180 4000000002000000
step 18 0000102e main+0x2e MOVnw R4, @R0(+3,+16)
step 19 00001032 main+0x32 CALL32EXa @R4(+1,+0)
step 20 00001038 main+0x38
  call 00001032 register entry tick
step 21 00001038 main+0x38
  enter tick int 1
  32 R0 000000000010414c stack+0xec
  64 R0 00000002000041c8 stack+0x168
step 22 00001044 tick+0x0 MOVIqw R7, 0
step 23 00001048 tick+0x4 RET
  32 R0 000000000010415c stack+0xfc
  64 R0 00000002000041d8 stack+0x178
step 24 gate
  return tick status ok 0
  32 R0 0000000000104160 stack+0x100
  64 R0 00000002000041e0 stack+0x180
step 25 00001038 main+0x38
  enter tick int 2
  32 R0 000000000010414c stack+0xec
  64 R0 00000002000041c8 stack+0x168
step 26 00001044 tick+0x0 MOVIqw R7, 0
step 27 00001048 tick+0x4 RET
  32 R0 000000000010415c stack+0xfc
  64 R0 00000002000041d8 stack+0x178
step 28 gate
  return tick status ok 0
  32 R0 0000000000104160 stack+0x100
  64 R0 00000002000041e0 stack+0x180
step 29 00001038 main+0x38
  reply 1 status ok 0
step 30 00001038 main+0x38 MOVqw R0, R0(+2,+0)
  32 R0 0000000000104168 stack+0x108
  64 R0 00000002000041f0 stack+0x190
step 31 0000103c main+0x3c RET
  32 R0 0000000000104178 stack+0x118
  64 R0 0000000200004200 stack+0x1a0
step 32 gate
  32 R0 0000000000104180
  64 R0 0000000200004210
  R4 0000000000000000
  R5 0000000000000000
end 32 gate finished status ok 0
.
state 'the states in a callback, at both' both 22 <<'.'
step 22 00001044 tick+0x0 MOVIqw R7, 0
state
  32 R0 000000000010414c stack+0xec
  64 R0 00000002000041c8 stack+0x168
  R1 0000000000000000
  R2 0000000000000000
  R3 0000000000000000
  32 R4 00000000001071a0 ptr 0 0
  64 R4 0000000200007230 ptr 0 0
  32 R5 0000000000106190 image+0x2000
  64 R5 0000000200006220 image+0x2000
  R6 0000000000000000
  R7 0000000000000000
  32 ip 00000000001051d8 tick+0x4
  64 ip 0000000200005268 tick+0x4
  C 0
  32 entered tick 00000000001051c8 main+0x38
  64 entered tick 0000000200005258 main+0x38
  called 1 register
  32 entered main 0000000000100000 gate
  64 entered main 0000000200000000 gate
  32 bytes 0000000000106190 image+0x2000 ..001000........................
  64 bytes 0000000200006220 image+0x2000 ..00000002......................
end 22 00001048 running
.
state 'once both runs are over' both 32 <<'.'
step 32 gate
  32 R0 0000000000104180
  64 R0 0000000200004210
  R4 0000000000000000
  R5 0000000000000000
state
  32 R0 0000000000104180
  64 R0 0000000200004210
  R1 0000000000000000
  R2 0000000000000000
  R3 0000000000000000
  R4 0000000000000000
  R5 0000000000000000
  R6 0000000000000000
  R7 0000000000000000
  32 ip 0000000000100000 gate
  64 ip 0000000200000000 gate
  C 0
  32 bytes 0000000000106190 image+0x2000 ..001000........................
  64 bytes 0000000200006220 image+0x2000 ..00000002......................
end 32 gate finished status ok 0
.
driver 'a part at both' both 8 10 <<'.'
step 8 00001016 main+0x16
  call 00001014 locate out
step 9 00001016 main+0x16
  reply 0 status ok 0
  R7 0000000000000000
step 10 00001016 main+0x16 MOVqw R0, R0(+1,+0)
  32 R0 0000000000104164 stack+0x104
  64 R0 00000002000041e8 stack+0x188
end 10 0000101a running
.
driver 'past the end at both' both 33 10000000 <<<'end 32 gate finished status ok 0'
driver 'a reply that does not fit at both' both 8 1000 wrong.script <<'.'
step 8 00001016 main+0x16
  call 00001014 locate out
step 9 00001016 main+0x16
end 9 00001016 mismatch reply
.
of "$stores" 0x1038 both <<'.'
step 1 00001000 main+0x0 MOVIqw R1, 5
  R1 0000000000000005
step 2 00001004 main+0x4 CMPI64weq R1, 5
  C 1
step 3 00001008 main+0x8 CMPI64weq R1, 5
step 4 0000100c main+0xc CMPI64weq R1, 4
  C 0
step 5 00001010 main+0x10 MOVqw R2, R0(-0,-32)
  32 R2 0000000000104090 stack+0x60
  64 R2 0000000200004090 stack+0x60
step 6 00001014 main+0x14 MOVIbw @R2, 7
  32 store 0000000000104090 stack+0x60 07
  64 store 0000000200004090 stack+0x60 07
step 7 00001018 main+0x18 MOVIww @R2, -1
  32 store 0000000000104090 stack+0x60 ffff
  64 store 0000000200004090 stack+0x60 ffff
step 8 0000101c main+0x1c ADD32 @R2, R1
  32 store 0000000000104090 stack+0x60 04000100
  64 store 0000000200004090 stack+0x60 04000100
step 9 0000101e main+0x1e MOVnw @R2, R0
  32 store 0000000000104090 stack+0x60 b0401000
  64 store 0000000200004090 stack+0x60 b040000002000000
step 10 00001020 main+0x20 PUSH32 R1
  32 R0 00000000001040ac stack+0x7c
  64 R0 00000002000040ac stack+0x7c
  32 store 00000000001040ac stack+0x7c 05000000
  64 store 00000002000040ac stack+0x7c 05000000
step 11 00001022 main+0x22 POP32 R3
  32 R0 00000000001040b0 stack+0x80
  64 R0 00000002000040b0 stack+0x80
  R3 0000000000000005
step 12 00001024 main+0x24 PUSH64 R1
  32 R0 00000000001040a8 stack+0x78
  64 R0 00000002000040a8 stack+0x78
  32 store 00000000001040a8 stack+0x78 0500000000000000
  64 store 00000002000040a8 stack+0x78 0500000000000000
step 13 00001026 main+0x26 POP64 @R2
  32 R0 00000000001040b0 stack+0x80
  64 R0 00000002000040b0 stack+0x80
  32 store 0000000000104090 stack+0x60 0500000000000000
  64 store 0000000200004090 stack+0x60 0500000000000000
step 14 00001028 main+0x28 PUSHn R1
  32 R0 00000000001040ac stack+0x7c
  64 R0 00000002000040a8 stack+0x78
  32 store 00000000001040ac stack+0x7c 05000000
  64 store 00000002000040a8 stack+0x78 0500000000000000
step 15 0000102a main+0x2a POPn R3
  32 R0 00000000001040b0 stack+0x80
  64 R0 00000002000040b0 stack+0x80
step 16 0000102c main+0x2c LOADSP [FLAGS], R1
  C 1
step 17 0000102e main+0x2e STORESP R4, [FLAGS]
  R4 0000000000000001
step 18 00001030 main+0x30 CALL32 2
  32 R0 00000000001040a0 stack+0x70
  64 R0 00000002000040a0 stack+0x70
  32 store 00000000001040a0 stack+0x70 06511000000000000000000000000000
  64 store 00000002000040a0 stack+0x70 06510000020000000000000000000000
step 19 00001038 RET
  32 R0 00000000001040b0 stack+0x80
  64 R0 00000002000040b0 stack+0x80
step 20 00001036 main+0x36 RET
  32 R0 00000000001040c0
  64 R0 00000002000040c0
step 21 gate
  R1 0000000000000000
  R2 0000000000000000
  R3 0000000000000000
  R4 0000000000000000
  C 0
end 21 gate finished any
.
of 'main: | MOVIqw R5, 5 | DIV64 R5, R4' 0x1006 both <<'.'
step 1 00001000 main+0x0 MOVIqw R5, 5
  R5 0000000000000005
step 2 00001004 main+0x4 DIV64 R5, R4
end 2 00001004 raised divide_error
.
of 'main: | BREAK 3' 0x1002 both <<'.'
step 1 00001000 main+0x0 BREAK 3
end 1 00001000 raised breakpoint
.
of 'main: | BREAK 2' 0x1002 both <<'.'
step 1 00001000 main+0x0 BREAK 2
end 1 00001000 raised bad_break
.
of 'main: | MOVIqw R0, 0 | PUSHn R4' 0x1006 both <<'.'
step 1 00001000 main+0x0 MOVIqw R0, 0
  R0 0000000000000000
step 2 00001004 main+0x4 PUSHn R4
end 2 00001004 raised stack_fault
.
of 'main: | MOVIqw R4, 1 | JMP32a R4' 0x1006 both <<'.'
step 1 00001000 main+0x0 MOVIqw R4, 1
  R4 0000000000000001
step 2 00001004 main+0x4 JMP32a R4
end 2 00001004 raised alignment_check
.
of 'main: | MOVqw R5, @R4' 0x1002 both <<'.'
step 1 00001000 main+0x0 MOVqw R5, @R4
end 1 00001000 raised memory_fault
.
of 'main: | .db 0x27, 0' 0x1002 both <<'.'
step 1 00001000 main+0x0
end 1 00001000 raised invalid_opcode
.
of 'main: | .db 0x04, 1' 0x1002 both <<'.'
step 1 00001000 main+0x0
end 1 00001000 raised instruction_encoding
.

# An immediate that the image relocates: the image lies at 0x1040d0 or at 0x2000040d0.
of 'main: | MOVIqq R4, main | RET' 0x100c both <<'.'
32 step 1 00001000 main+0x0 MOVIqq R4, 1069264
64 step 1 00001000 main+0x0 MOVIqq R4, 8589955280
  32 R4 00000000001050d0 main+0x0
  64 R4 00000002000050d0 main+0x0
step 2 0000100a main+0xa RET
  32 R0 00000000001040c0
  64 R0 00000002000040c0
step 3 gate
  R4 0000000000000000
end 3 gate finished any
.

# What changes at one width alone.
of 'main: | MOVInw R4, (+1,+0) | CMPI64weq R4, 4 | MOVIqw R5, 4 | MOVqw R5, R4 | RET' 0x1010 both <<'.'
step 1 00001000 main+0x0 MOVInw R4, (+1,+0)
  32 R4 0000000000000004
  64 R4 0000000000000008
step 2 00001004 main+0x4 CMPI64weq R4, 4
  32 C 1
step 3 00001008 main+0x8 MOVIqw R5, 4
  R5 0000000000000004
step 4 0000100c main+0xc MOVqw R5, R4
  64 R5 0000000000000008
step 5 0000100e main+0xe RET
  32 R0 00000000001040c0
  64 R0 00000002000040c0
step 6 gate
  R4 0000000000000000
  R5 0000000000000000
  32 C 0
end 6 gate finished any
.

# ---- docs/HOST.md, "A run that parts", and others that do

built 'main: | MOVInw R4, (+1,+0) | CMPI64weq R4, 8 | JMP8cc -2 | RET' 0x100c
whole 'a run that parts, at both' 8 both i.efi i.notes i.script 1 100 <<'.'
step 1 00001000 main+0x0 MOVInw R4, (+1,+0)
  32 R4 0000000000000004
  64 R4 0000000000000008
step 2 00001004 main+0x4 CMPI64weq R4, 8
  64 C 1
differ 3
step 3 00001008 main+0x8 JMP8cc -2
state
  32 R0 00000000001040b0 stack+0x80
  64 R0 00000002000040b0 stack+0x80
  R1 0000000000000000
  R2 0000000000000000
  R3 0000000000000000
  32 R4 0000000000000004
  64 R4 0000000000000008
  R5 0000000000000000
  R6 0000000000000000
  R7 0000000000000000
  32 ip 00000000001050d6 main+0x6
  64 ip 00000002000050da main+0xa
  32 C 0
  64 C 1
  32 entered main 0000000000100000 gate
  64 entered main 0000000200000000 gate
32 end 3 00001006 running
64 end 3 0000100a running
.
for part in '2 100' '3 3' '50 100'; do
  row "a run that parts, from $part on" 8 both i.efi i.notes i.script $part <<'.'
step 2 00001004 main+0x4 CMPI64weq R4, 8
  64 C 1
differ 3
step 3 00001008 main+0x8 JMP8cc -2
32 end 3 00001006 running
64 end 3 0000100a running
.
done
row 'a run that parts, up to the step before' 0 both i.efi i.notes i.script 1 2 <<'.'
step 1 00001000 main+0x0 MOVInw R4, (+1,+0)
  32 R4 0000000000000004
  64 R4 0000000000000008
step 2 00001004 main+0x4 CMPI64weq R4, 8
  64 C 1
end 2 00001008 running
.
of 'main: | MOVIqw @R0(-0,-16), 4 | MOVqw R4, R0(-0,-16) | JMP32a R4' 0x100c both 8 <<'.'
step 1 00001000 main+0x0 MOVIqw @R0(-0,-16), 4
  32 store 00000000001040a0 stack+0x70 0400000000000000
  64 store 00000002000040a0 stack+0x70 0400000000000000
step 2 00001006 main+0x6 MOVqw R4, R0(-0,-16)
  32 R4 00000000001040a0 stack+0x70
  64 R4 00000002000040a0 stack+0x70
differ 3
step 3 0000100a main+0xa JMP32a R4
32 end 3 wild 00000000001040a0 running
64 end 3 wild 00000002000040a0 running
.
of 'main: | MOVInw R4, (+1,+0) | MOVIqw R5, 4 | SUB64 R4, R5 | DIV64 R5, R4' 0x100c both 8 <<'.'
step 1 00001000 main+0x0 MOVInw R4, (+1,+0)
  32 R4 0000000000000004
  64 R4 0000000000000008
step 2 00001004 main+0x4 MOVIqw R5, 4
  R5 0000000000000004
step 3 00001008 main+0x8 SUB64 R4, R5
  32 R4 0000000000000000
  64 R4 0000000000000004
differ 4
step 4 0000100a main+0xa DIV64 R5, R4
  64 R5 0000000000000001
32 end 4 0000100a raised divide_error
64 end 4 0000100c running
.

# With an entry past the image the runs differ before their first step.
sed -i 's/^place = .*/place = 0x5000/; s/^end = .*/end = 0x5002/' i.notes
whole 'an entry past the image' 8 both i.efi i.notes i.script 1 100 <<'.'
differ 0
32 step 1 wild 00000000001090d0
64 step 1 wild 00000002000090d0
state
  32 R0 00000000001040b0 stack+0x80
  64 R0 00000002000040b0 stack+0x80
  R1 0000000000000000
  R2 0000000000000000
  R3 0000000000000000
  R4 0000000000000000
  R5 0000000000000000
  R6 0000000000000000
  R7 0000000000000000
  32 ip 00000000001090d0
  64 ip 00000002000090d0
  C 0
  32 entered main 0000000000100000 gate
  64 entered main 0000000200000000 gate
32 end 1 wild 00000000001090d0 raised memory_fault
64 end 1 wild 00000002000090d0 raised memory_fault
.

# ---- rows of bytes at both widths, by what they are of
#
# The stack begins at 0x104030 or 0x200004030, and takes nine times 20 or 24 bytes. The image is 0x2000 bytes from 0x104100 or 0x200004120
# on. Object 0 has two instances of 16 or 32 bytes from 0x106110 or 0x200006130 on, and object 1 is 16 bytes from 0x106140 or 0x200006180 on.

cells='main: | MOVnw R4, @R0(+0,+16) | MOVRELd R5, 4066 | MOVnw @R5, R4 | MOVIbw @R4, 1 | MOVIbw @R4(+4,+0), 2 | MOVIbw @R4(+7,+0), 3'
built "$cells | MOVIbw @R4(+8,+16), 4 | RET" 0x1024
lines 'params = ["n ptr:Four"]' '[[shape]]' 'name = "Four"' 'size = [4, 0]' 'fields = ["first 0 0 i8"]' \
  '[[shape]]' 'name = "Block"' 'size = [0, 16]' 'fields = ["first 0 0 i8"]' >>i.notes
lines 'version = 1' 'args = ["ptr 0 0"]' '[[object]]' 'shape = "Four"' 'count = 2' 'cells = []' \
  '[[object]]' 'shape = "Block"' 'count = 1' 'cells = []' >i.script
whole 'rows of bytes at both' 0 both i.efi i.notes i.script 7 7 <<'.'
step 7 0000101c main+0x1c MOVIbw @R4(+8,+16), 4
  32 store 0000000000106140 ptr 1 0 04
  64 store 0000000200006180 ptr 1 0 04
state
  32 R0 00000000001040d0 stack+0xa0
  64 R0 00000002000040f0 stack+0xc0
  R1 0000000000000000
  R2 0000000000000000
  R3 0000000000000000
  32 R4 0000000000106110 ptr 0 0
  64 R4 0000000200006130 ptr 0 0
  32 R5 00000000001060ec image+0x1fec
  64 R5 000000020000610c image+0x1fec
  R6 0000000000000000
  R7 0000000000000000
  32 ip 0000000000105122 main+0x22
  64 ip 0000000200005142 main+0x22
  C 0
  32 entered main 0000000000100000 gate
  64 entered main 0000000200000000 gate
  32 bytes 00000000001060e0 image+0x1fe0 ........................106110..
  64 bytes 0000000200006100 image+0x1fe0 ........................3061....
  64 bytes 0000000200006110 image+0x1ff0 02..............................
  32 bytes 0000000000106110 ptr 0 0 01..............................
  64 bytes 0000000200006130 ptr 0 0 01..............................
  32 bytes 0000000000106120 ptr 0 0+0x10 02......................03......
  64 bytes 0000000200006150 ptr 0 0+0x20 02..............................
  64 bytes 0000000200006160 ptr 0 0+0x30 ................03..............
  32 bytes 0000000000106140 ptr 1 0 04..............................
  64 bytes 0000000200006180 ptr 1 0 04..............................
end 7 00001022 running
.

# ---- what arguments point to
#
# The stack begins at 0x104040 or 0x200004040, and takes nine times 32 or 48 bytes. The image is 0x3000 bytes from 0x104170 or 0x200004200
# on. The table of the script is object 3. The call makes object 4, ten instances of 16 bytes, each with another first byte.

{
  lines '.global main' 'main: MOVnw R4, @R0(+0,+16) | MOVRELd R5, wide | PUSHn R5 | MOVRELd R5, narrow | PUSHn R5 | MOVRELd R5, pairs' \
    'PUSHn R5 | CALL32EXa @R4 | MOVqw R0, R0(+3,+0) | RET' '.data' 'wide: .dw 72, 34, 92, 233, 10, 8364, 0, 7' \
    'narrow: .db 72, 105, 126, 0, 1' 'pairs: .db 1, 2, 3, 4, 5, 6, 7, 8, 9, 10, 11, 12, 13, 14, 15, 16, 17, 18'
} >texts.asm
sed 's/i\.obj/texts.obj/' i.plan >texts.plan
{ "$EBC" asm texts.asm texts.obj >built 2>&1 && "$EBC" link texts.plan texts.efi >built 2>&1; } || fail "texts"$'\n'"$(cat built)"
cat >texts.notes <<'.'
version = 1
entry = "main"
[[function]]
name = "main"
place = 0x1000
end = 0x1024
level = 0
need = [3, 0]
params = ["n ptr:Sys"]
result = "any"
[[shape]]
name = "Sys"
size = [1, 0]
fields = ["print 0 0 method:Print"]
[[shape]]
name = "Char16"
size = [0, 2]
fields = ["unit 0 0 i16"]
[[shape]]
name = "Char8"
size = [0, 1]
fields = ["unit 0 0 i8"]
[[shape]]
name = "Pair"
size = [0, 2]
fields = ["low 0 0 i8", "high 0 1 i8"]
[[shape]]
name = "Block"
size = [0, 16]
fields = ["first 0 0 i8"]
[[static]]
place = 0x2000
shape = "Char16"
count = 8
[[static]]
place = 0x2010
shape = "Char8"
count = 5
[[static]]
place = 0x2015
shape = "Pair"
count = 9
[[signature]]
name = "print"
method = "Print"
params = ["n ptr", "n ptr", "n ptr"]
result = "status"
[[site]]
place = 0x101c
signature = "print"
.
cat >texts.script <<'.'
version = 1
args = ["ptr 3 0"]
[[object]]
shape = "Sys"
count = 1
cells = ["0 print method Print"]
[[call]]
signature = "print"
args = ["ptr 2 0", "ptr 1 0", "ptr 0 0"]
result = "status ok 0"
[[call.make]]
shape = "Block"
count = 10
cells = ["0 first int 1", "1 first int 2", "2 first int 3", "3 first int 4", "4 first int 5", "5 first int 6", "6 first int 7",
  "7 first int 8", "8 first int 9", "9 first int 10"]
.
whole 'texts and bytes, at 32' 0 32 texts.efi texts.notes texts.script 9 9 <<'.'
step 9 0000101e main+0x1e
  call 0000101c print ptr 2 0 ptr 1 0 ptr 0 0
  argument 0 0102030405060708090a0b0c0d0e0f10
  argument 1 "Hi~"
  argument 2 "H\u0022\u005c\u00e9\u000a\u20ac"
state
  R0 0000000000104140 stack+0x100
  R1 0000000000000000
  R2 0000000000000000
  R3 0000000000000000
  R4 0000000000107180 ptr 3 0
  R5 0000000000106185 image+0x2015
  R6 0000000000000000
  R7 0000000000000000
  ip 000000000010518e main+0x1e
  C 0
  called 0 print
  entered main 0000000000100000 gate
  bytes 00000000001071a0 ptr 4 0 01..............................
  bytes 00000000001071b0 ptr 4 0+0x10 02..............................
  bytes 00000000001071c0 ptr 4 0+0x20 03..............................
  bytes 00000000001071d0 ptr 4 0+0x30 04..............................
  bytes 00000000001071e0 ptr 4 0+0x40 05..............................
  bytes 00000000001071f0 ptr 4 0+0x50 06..............................
  bytes 0000000000107200 ptr 4 0+0x60 07..............................
  bytes 0000000000107210 ptr 4 0+0x70 08..............................
  more 2
end 9 0000101e running
.
edited '/^  [RCei]\|^  \(32\|64\) [Rei]/d' 'texts and bytes, at both' 0 both texts.efi texts.notes texts.script 9 9 <<'.'
step 9 0000101e main+0x1e
  call 0000101c print ptr 2 0 ptr 1 0 ptr 0 0
  argument 0 0102030405060708090a0b0c0d0e0f10
  argument 1 "Hi~"
  argument 2 "H\u0022\u005c\u00e9\u000a\u20ac"
state
  called 0 print
  32 bytes 00000000001071a0 ptr 4 0 01..............................
  64 bytes 0000000200007230 ptr 4 0 01..............................
  32 bytes 00000000001071b0 ptr 4 0+0x10 02..............................
  64 bytes 0000000200007240 ptr 4 0+0x10 02..............................
  32 bytes 00000000001071c0 ptr 4 0+0x20 03..............................
  64 bytes 0000000200007250 ptr 4 0+0x20 03..............................
  32 bytes 00000000001071d0 ptr 4 0+0x30 04..............................
  64 bytes 0000000200007260 ptr 4 0+0x30 04..............................
  32 bytes 00000000001071e0 ptr 4 0+0x40 05..............................
  64 bytes 0000000200007270 ptr 4 0+0x40 05..............................
  32 bytes 00000000001071f0 ptr 4 0+0x50 06..............................
  64 bytes 0000000200007280 ptr 4 0+0x50 06..............................
  32 bytes 0000000000107200 ptr 4 0+0x60 07..............................
  64 bytes 0000000200007290 ptr 4 0+0x60 07..............................
  32 bytes 0000000000107210 ptr 4 0+0x70 08..............................
  64 bytes 00000002000072a0 ptr 4 0+0x70 08..............................
  more 2
end 9 0000101e running
.
# Of a call that the firmware doesn't accept, since the script has none.
sed '/^\[\[call\]\]$/,$d' texts.script >i.script
whole 'a native call that is not accepted' 0 32 texts.efi texts.notes i.script 9 9 <<'.'
step 9 0000101e main+0x1e
  call 0000101c print ptr 2 0 ptr 1 0 ptr 0 0
  argument 0 0102030405060708090a0b0c0d0e0f10
  argument 1 "Hi~"
  argument 2 "H\u0022\u005c\u00e9\u000a\u20ac"
state
  R0 0000000000104140 stack+0x100
  R1 0000000000000000
  R2 0000000000000000
  R3 0000000000000000
  R4 0000000000107180 ptr 3 0
  R5 0000000000106185 image+0x2015
  R6 0000000000000000
  R7 0000000000000000
  ip 000000000010518e main+0x1e
  C 0
  asked 0000101c
  entered main 0000000000100000 gate
end 9 0000101e script end
.
# A text that isn't there: no printable character in front of the zero, another character, and no zero. The last one is there.
for bytes in '0, 105, 126, 0, 1:00697e0001' '72, 105, 10, 0, 1:48690a0001' '72, 105, 126, 33, 63:48697e213f' \
  '34, 92, 32, 0, 1:"\u0022\u005c "'; do
  sed "s/^narrow: .*/narrow: .db ${bytes%:*}/" texts.asm >i.asm
  { "$EBC" asm i.asm texts.obj >built 2>&1 && "$EBC" link texts.plan texts.efi >built 2>&1; } || fail "$bytes"$'\n'"$(cat built)"
  row "bytes $bytes" 0 32 texts.efi texts.notes texts.script 9 9 <<.
step 9 0000101e main+0x1e
  call 0000101c print ptr 2 0 ptr 1 0 ptr 0 0
  argument 0 0102030405060708090a0b0c0d0e0f10
  argument 1 ${bytes#*:}
  argument 2 "H\\u0022\\u005c\\u00e9\\u000a\\u20ac"
end 9 0000101e running
.
done
# Texts of 64 and of 65 cells. The static objects lie at 0x2000, 0x2084 and 0x20c6 then.
sed 's/0x2010/0x2084/; s/0x2015/0x20c6/; s/^count = [58]$/count = 66/' texts.notes >long.notes
letters=$(printf 'A%.0s' {1..64})
for last in '0:' '65:...'; do
  cells=$(printf '65, %.0s' {1..64})${last%:*}
  sed "s/^wide: .*/wide: .dw $cells, 0/; s/^narrow: .*/narrow: .db $cells, 0/" texts.asm >i.asm
  { "$EBC" asm i.asm texts.obj >built 2>&1 && "$EBC" link texts.plan texts.efi >built 2>&1; } || fail "$cells"$'\n'"$(cat built)"
  row "64 cells and ${last%:*}" 0 both texts.efi long.notes texts.script 9 9 <<.
step 9 0000101e main+0x1e
  call 0000101c print ptr 2 0 ptr 1 0 ptr 0 0
  argument 0 0102030405060708090a0b0c0d0e0f10
  argument 1 "$letters"${last#*:}
  argument 2 "$letters"${last#*:}
end 9 0000101e running
.
done
# The second of three instances: each holds the address of the method.
sed '/^MOVRELd R5, pairs$/{N;s/.*/PUSHn R4/}' texts.asm >i.asm
{ "$EBC" asm i.asm texts.obj >built 2>&1 && "$EBC" link texts.plan texts.efi >built 2>&1; } || fail "second"$'\n'"$(cat built)"
sed 's/0x1024/0x101e/; s/0x101c/0x1016/' texts.notes >i.notes
sed -e 's/ptr 3 0/ptr 3 1/; s/^count = 1$/count = 3/; s/ptr 2 0/ptr 3 1/' \
  -e 's/"0 print method Print"/&, "1 print method Print", "2 print method Print"/' texts.script >i.script
row 'the second instance' 0 both texts.efi i.notes i.script 8 8 <<'.'
step 8 00001018 main+0x18
  call 00001016 print ptr 3 1 ptr 1 0 ptr 0 0
  32 argument 0 1000100010001000
  64 argument 0 10000000020000001000000002000000
  argument 1 "Hi~"
  argument 2 "H\u0022\u005c\u00e9\u000a\u20ac"
end 8 00001018 running
.
# The address of a cell that is lent, here that of the argument behind it.
sed '/^MOVRELd R5, pairs$/s/.*/MOVqw R5, R0/' texts.asm >i.asm
{ "$EBC" asm i.asm texts.obj >built 2>&1 && "$EBC" link texts.plan texts.efi >built 2>&1; } || fail "lent"$'\n'"$(cat built)"
sed 's/0x1024/0x1020/; s/0x101c/0x1018/; s/^params = \["n ptr", /params = ["n inout:ptr:Char8", /' texts.notes >i.notes
sed 's/"ptr 2 0"/"lent ptr 1 0"/' texts.script >i.script
row 'a pointer that is lent' 0 both texts.efi i.notes i.script 9 9 <<'.'
step 9 0000101a main+0x1a
  call 00001018 print lent ptr 1 0 ptr 1 0 ptr 0 0
  argument 1 "Hi~"
  argument 2 "H\u0022\u005c\u00e9\u000a\u20ac"
end 9 0000101a running
.

# ---- the example of a driver with a callback (docs/UEFI.md)
#
# At width 32 the stack begins at 0x1043a0, behind 1,081 things, and takes nine times 60 bytes. The image lies at 0x1045d0 and the system
# table at 0x107750. The thunk cell is at 0x2000 in the image, and then come the count of calls and the address of that table.

uefi=$top/examples/uefi
awk -f "$uefi"/numbers.awk "$uefi"/event.labels "$uefi"/event.script "$uefi"/uefi.script >event.run
# What is printed but for steps, registers, C, stores and the argument that points to the table of the console.
event() { edited '/^step\|^  [RCs]\|^  ip\|^  argument 0\|^state/d' "$1" 0 "$2" "$uefi"/event.efi "$uefi"/event.notes event.run "${@:3}"; }
event 'a native call that a callback asks for' 32 42 42 <<'.'
  asked 000010d0
  entered tick 000000000010562c main+0x5c
  called 1 signal_event
  entered main 0000000000100000 gate
  bytes 00000000001065d0 image+0x2000 70031000........01......507710..
end 42 000010d6 running
.
event 'a native call under way in a callback' 32 43 43 <<'.'
  call 000010d0 output_string ptr 5 0 ptr 3 0
  argument 1 "tick\u000d\u000a"
  called 2 output_string
  entered tick 000000000010562c main+0x5c
  called 1 signal_event
  entered main 0000000000100000 gate
  bytes 00000000001065d0 image+0x2000 70031000........01......507710..
end 43 000010d6 running
.
edited '/^  argument\|^end\|^status/!d' 'the texts of the native calls, at both' 0 both "$uefi"/event.efi "$uefi"/event.notes event.run \
  1 100000 <<'.'
  argument 1 "tick\u000d\u000a"
  argument 1 "tick\u000d\u000a"
  argument 1 "0000000000000002\u000d\u000a"
end 482 gate finished status ok 0
.

# ---- limits and words

built 'main: | JMP8 -1' 0x1002
row 'the most steps' 0 32 i.efi i.notes i.script 9999999 10000000 <<'.'
step 9999999 00001000 main+0x0 JMP8 -1
step 10000000 00001000 main+0x0 JMP8 -1
end 10000000 00001000 running
.
row 'the most steps at both' 0 both i.efi i.notes i.script 9999999 10000000 <<'.'
step 9999999 00001000 main+0x0 JMP8 -1
step 10000000 00001000 main+0x0 JMP8 -1
end 10000000 00001000 running
.
line 'one step too many' 7 'large 10000001' 32 i.efi i.notes i.script 1 10000001
line 'a number past 64 bits' 7 'large 100000000000000000000' 32 absent absent absent 1 100000000000000000000
line 'no image' 9 'missing absent' 32 absent i.notes i.script 1 1
line 'no notes' 9 'missing absent' 32 i.efi absent i.script 1 1
line 'no script' 9 'missing absent' 32 i.efi i.notes absent 1 1
line 'a source as an image' 3 'bad i.asm short 0' 32 i.asm i.notes i.script 1 1
line 'a plan as notes' 3 'bad i.plan missing version' 32 i.efi i.plan i.script 1 1
line 'a source as a script' 3 'bad i.asm nottoml -' 32 i.efi i.notes i.asm 1 1
line 'one step too many at both' 7 'large 10000001' both i.efi i.notes i.script 1 10000001
line 'no image at both' 9 'missing absent' both absent i.notes i.script 1 1
line 'no script at both' 9 'missing absent' both i.efi i.notes absent 1 1
line 'a plan as notes at both' 3 'bad i.plan missing version' both i.efi i.plan i.script 1 1
row 'a folder' 4 32 . i.notes i.script 1 1 </dev/null
"$EBC_TRACE" 32 i.efi i.notes i.script 1 1 >/dev/full 2>said
found="status $?"$'\n'"$(head -n 1 said)"
full="ebc_trace: error: the output can't be written: No space left on device (os error 28)"
[ "$found" = $'status 5\n'"$full" ] || fail "a full disk"$'\n'"$found"
while read -ra words; do
  line "the words '${words[*]}'" 2 'usage: WIDTH IMAGE NOTES SCRIPT FIRST LAST | both IMAGE NOTES SCRIPT FIRST LAST' "${words[@]}"
done <<'.'

32 a b c 1
32 a b c 1 2 3
16 a b c 1 2
32 a b c 0 1
32 a b c 2 1
32 a b c 01 1
32 a b c 1 01
32 a b c 1 x
both a b c 1
both a b c 2 1
.

exit "$failed"
