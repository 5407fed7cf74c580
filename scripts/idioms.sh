#!/usr/bin/env bash
# Idioms of code, as people write them: loops, switches, tables, strings, lists and statuses. `ebc_notes` has to find points for those that
# a row calls neutral, and to refuse the others as the row says; docs/crates/point_search.md says why.
#
# Prints the name of each row that differs, with what is printed of it. Ends with status 1 if there was one. EBC and EBC_NOTES name the
# programs, by default the scripts of bin/. It takes a few seconds.
set -u
top=$(CDPATH='' cd -- "$(dirname -- "${BASH_SOURCE[0]}")/.." >/dev/null && pwd -P)
EBC=$(realpath -e -- "${EBC:-$top/bin/ebc}") && EBC_NOTES=$(realpath -e -- "${EBC_NOTES:-$top/bin/ebc_notes}") || exit 1
room=$(mktemp -d) || exit 1
trap 'rm -rf "$room"' EXIT
cd "$room" || exit 1
failed=0
fail() { printf 'idioms: %s\n' "$*"; failed=1; }

# ---- what all idioms share

# A function that gives an error, and the data.
cat >shared <<'end'
err:
  MOVInw R6, (+8,+0)
  MOVIqw R5, 1
  SHL64 R5, R6 -1
  MOVnw R7, @R0(+0,+16)
  OR64 R7, R5
  RET
.data
chars: .zero 34
ten: .zero 20
dwords: .zero 64
bytes: .zero 256
end

# The notes with labels, but for the result of the function `main`.
cat >notes <<'end'
[[shape]]
name = "Char16"
size = [0, 2]
fields = ["unit 0 0 i16"]
[[shape]]
name = "Byte"
size = [0, 1]
fields = ["v 0 0 i8"]
[[shape]]
name = "Dword"
size = [0, 4]
fields = ["v 0 0 i32"]
[[shape]]
name = "Node"
size = [1, 8]
fields = ["key 0 0 i64", "next 0 8 ptr?:Node"]
[[shape]]
name = "Sys"
size = [4, 0]
fields = ["out 0 0 method:Out", "get 1 0 method:Get", "list 2 0 ptr?:Node", "reg 3 0 method:Reg"]
[[shape]]
name = "L"
size = [2, 8]
fields = ["i 0 0 i64", "p 0 8 ptr:Node", "h 1 8 handle"]
[[static]]
place = "chars"
shape = "Char16"
[[static]]
place = "ten"
shape = "Char16"
[[static]]
place = "dwords"
shape = "Dword"
[[static]]
place = "bytes"
shape = "Byte"
[[function]]
name = "main"
locals = "L"
params = ["n int:0..100", "n ptr:Sys", "n handle"]
result = "RESULT"
[[function]]
name = "err"
params = ["n int:0..31"]
result = "status"
[[signature]]
name = "out"
method = "Out"
params = ["n ptr", "n ptr"]
result = "status"
[[signature]]
name = "get"
method = "Get"
params = ["n out:ptr:Node"]
result = "status"
[[signature]]
name = "reg"
method = "Reg"
params = ["n handle"]
result = "status"
end

printf 'objects = ["idiom.obj"]\nentry = "main"\nsubsystem = 11\nbase = 65536\n' >idiom.plan

# ---- the rows

# The idiom of this name and answer, with the instructions of `main`, between bars.
idiom() { idiom_with status "$@"; }
# The same, where `main` has another result.
idiom_with() {
  { printf '.global main\nmain:\n'; sed 's/ *| */\n/g' <<<"$4"; cat shared; } >idiom.asm
  sed "s/RESULT/$1/" notes >idiom.labels
  "$EBC" asm idiom.asm idiom.obj >/dev/null 2>&1 || fail "$2 isn't assembled"
  local found
  found=$("$EBC_NOTES" idiom.plan idiom.labels 2>/dev/null) && found=neutral
  found=$(sed -n 1p <<<"$found")
  [ "$found" = "$3" ] || fail "$2 prints '$found', not '$3'"
}
# The registers of the points that are found for the last idiom, a line for each point.
points() {
  local found
  found=$("$EBC_NOTES" idiom.plan idiom.labels 2>/dev/null | sed -n 's/^regs = \["\(.*\)"\]$/\1/p' | sed 's/", "/, /g')
  [ "$found" = "$2" ] || fail "the points of $1 are '$found', not '$2'"
}

idiom behind-minus 'neutral' '
  MOVIqw R6, 1 | MOVIqw R4, 0
  n: | CMPI64wugte R4, 16 | JMP8cs d | MOVqw R7, R4 | MOVIqw R5, 2 | MULU64 R7, R5 | MOVRELd R5, chars | ADD64 R5, R7
  MOVww @R5, R6 | MOVqw R4, R4(+0,+1) | JMP8 n
  d: | MOVqw R4, R4(-0,-10) | MOVqw R7, R4 | MOVIqw R5, 2 | MULU64 R7, R5 | MOVRELd R5, ten | ADD64 R5, R7
  MOVww @R5, R6 | MOVIqw R7, 0 | RET'
idiom behind-minus-loop 'neutral' '
  PUSH64 R1 | PUSH64 R2 | PUSH64 R3 | MOVIqw R6, 1 | MOVIqw R4, 0
  n: | CMPI64wugte R4, 16 | JMP8cs d0 | MOVqw R7, R4 | MOVIqw R5, 2 | MULU64 R7, R5 | MOVRELd R5, chars | ADD64 R5, R7
  MOVww @R5, R6 | MOVqw R4, R4(+0,+1) | JMP8 n
  d0: | MOVIqw R3, 0
  d: | CMPI64wugte R3, 5 | JMP8cs e | MOVqw R2, R4(-0,-10) | MOVqw R7, R2 | MOVIqw R5, 2 | MULU64 R7, R5
  MOVRELd R5, ten | ADD64 R5, R7 | MOVww @R5, R6 | MOVqw R3, R3(+0,+1) | JMP8 d
  e: | POP64 R3 | POP64 R2 | POP64 R1 | MOVIqw R7, 0 | RET'
idiom bound-behind 'neutral' '
  MOVIqw R6, 1 | MOVIqw R4, 0
  n: | CMPI64wugte R4, 16 | JMP8cs d | MOVqw R7, R4 | MOVIqw R5, 2 | MULU64 R7, R5 | MOVRELd R5, chars | ADD64 R5, R7
  MOVww @R5, R6 | MOVqw R4, R4(+0,+1) | JMP8 n
  d: | MOVqw R7, R4 | MOVIqw R5, 2 | MULU64 R7, R5 | MOVRELd R5, chars | ADD64 R5, R7 | MOVww @R5, R6 | MOVIqw R7, 0
  RET'
idiom bound-signed 'neutral' '
  MOVIqw R6, 1 | MOVIqw R4, 0
  n: | CMPI64wgte R4, 17 | JMP8cs d | MOVqw R7, R4 | MOVIqw R5, 2 | MULU64 R7, R5 | MOVRELd R5, chars | ADD64 R5, R7
  MOVww @R5, R6 | MOVqw R4, R4(+0,+1) | JMP8 n
  d: | MOVIqw R7, 0 | RET'
idiom byte-offset 'neutral' '
  MOVIqw R6, 1 | MOVIqw R4, 0
  n: | CMPI64wugte R4, 64 | JMP8cs d | MOVRELd R5, dwords | ADD64 R5, R4 | MOVdw @R5, R6 | MOVqw R4, R4(+0,+4) | JMP8 n
  d: | MOVIqw R7, 0 | RET'
points byte-offset 'R4 int:0..100/4, R6 int:1..1
R4 int:64..100/4, R6 int:1..1'
idiom call-in-loop 'neutral' '
  PUSH64 R1 | PUSH64 R2 | PUSH64 R3 | MOVIqw R2, 0
  n: | CMPI64wugte R2, 17 | JMP8cs d | PUSHn R2 | CALL32 err | POPn R6 | MOVqw R7, R2 | MOVIqw R5, 2 | MULU64 R7, R5
  MOVRELd R5, chars | ADD64 R5, R7 | MOVww @R5, R6 | MOVqw R2, R2(+0,+1) | JMP8 n
  d: | POP64 R3 | POP64 R2 | POP64 R1 | MOVIqw R7, 0 | RET'
idiom clamp 'neutral' '
  MOVIqw R6, 1 | MOVnw R4, @R0(+0,+16) | CMPI64wulte R4, 16 | JMP8cs w | MOVIqw R4, 16
  w: | MOVqw R7, R4 | MOVIqw R5, 2 | MULU64 R7, R5 | MOVRELd R5, chars | ADD64 R5, R7 | MOVww @R5, R6 | MOVIqw R7, 0
  RET'
idiom count-down 'neutral' '
  MOVIqw R6, 1 | MOVIqw R4, 17
  n: | CMPI64weq R4, 0 | JMP8cs d | MOVqw R4, R4(-0,-1) | MOVqw R7, R4 | MOVIqw R5, 2 | MULU64 R7, R5
  MOVRELd R5, chars | ADD64 R5, R7 | MOVww @R5, R6 | JMP8 n
  d: | MOVIqw R7, 0 | RET'
points count-down 'R4 int:0..17, R6 int:1..1
R4 int:0..0, R6 int:1..1'
idiom count-down-do 'neutral' '
  MOVIqw R6, 1 | MOVIqw R4, 17
  n: | MOVqw R4, R4(-0,-1) | MOVqw R7, R4 | MOVIqw R5, 2 | MULU64 R7, R5 | MOVRELd R5, chars | ADD64 R5, R7
  MOVww @R5, R6 | CMPI64weq R4, 0 | JMP8cc n | MOVIqw R7, 0 | RET'
idiom counter-in-local 'neutral' '
  MOVqw R0, R0(-2,-8) | MOVIqw R6, 1 | MOVIqw @R0, 0
  n: | MOVqw R4, @R0 | CMPI64wugte R4, 17 | JMP8cs d | MOVqw R7, R4 | MOVIqw R5, 2 | MULU64 R7, R5 | MOVRELd R5, chars
  ADD64 R5, R7 | MOVww @R5, R6 | MOVqw R4, @R0 | MOVqw R4, R4(+0,+1) | MOVqw @R0, R4 | JMP8 n
  d: | MOVqw R0, R0(+2,+8) | MOVIqw R7, 0 | RET'
idiom counter-kept-past 'neutral' '
  MOVIqw R6, 1 | MOVIqw R4, 0
  n: | MOVqw R7, R4 | MOVIqw R5, 2 | MULU64 R7, R5 | MOVRELd R5, chars | ADD64 R5, R7 | MOVww @R5, R6
  MOVqw R4, R4(+0,+1) | CMPI64weq R4, 12 | JMP8cs d | JMP8 n
  d: | MOVqw R4, R4(-0,-3) | MOVqw R7, R4 | MOVIqw R5, 2 | MULU64 R7, R5 | MOVRELd R5, ten | ADD64 R5, R7
  MOVww @R5, R6 | MOVIqw R7, 0 | RET'
idiom counter-on-stack 'neutral' '
  MOVIqw R6, 1 | MOVIqw R4, 0
  n: | CMPI64wugte R4, 17 | JMP8cs d | PUSH64 R4 | PUSHn R6 | CALL32 err | POPn R6 | POP64 R4 | MOVqw R7, R4
  MOVIqw R5, 2 | MULU64 R7, R5 | MOVRELd R5, chars | ADD64 R5, R7 | MOVww @R5, R6 | MOVqw R4, R4(+0,+1) | JMP8 n
  d: | MOVIqw R7, 0 | RET'
idiom decimal 'neutral' '
  PUSH64 R1 | PUSH64 R2 | PUSH64 R3 | MOVnw R4, @R0(+0,+40) | MOVIqw R3, 9
  n: | MOVqw R6, R4 | MOVIqw R5, 10 | MODU64 R6, R5 | DIVU64 R4, R5 | MOVqw R2, R4 | MOVqw R7, R3 | MOVIqw R5, 2
  MULU64 R7, R5 | MOVRELd R5, chars | ADD64 R5, R7 | MOVww @R5, R6 | CMPI64weq R3, 0 | JMP8cs d | MOVqw R3, R3(-0,-1)
  MOVqw R4, R2 | CMPI64weq R4, 0 | JMP8cc n
  d: | POP64 R3 | POP64 R2 | POP64 R1 | MOVIqw R7, 0 | RET'
idiom do-while 'neutral' '
  MOVIqw R6, 1 | MOVIqw R4, 0
  n: | MOVqw R7, R4 | MOVIqw R5, 2 | MULU64 R7, R5 | MOVRELd R5, chars | ADD64 R5, R7 | MOVww @R5, R6
  MOVqw R4, R4(+0,+1) | CMPI64wugte R4, 17 | JMP8cc n | MOVIqw R7, 0 | RET'
points do-while 'R4 int:0..16, R6 int:1..1'
idiom do-while-ne 'neutral' '
  MOVIqw R6, 1 | MOVIqw R4, 0
  n: | MOVqw R7, R4 | MOVIqw R5, 2 | MULU64 R7, R5 | MOVRELd R5, chars | ADD64 R5, R7 | MOVww @R5, R6
  MOVqw R4, R4(+0,+1) | CMPI64weq R4, 17 | JMP8cc n | MOVIqw R7, 0 | RET'
idiom error-codes 'neutral' '
  MOVnw R4, @R0(+0,+16) | MOVIqw R6, 12 | CMPI64weq R4, 0 | JMP8cs w | MOVIqw R6, 13 | CMPI64weq R4, 1 | JMP8cs w
  MOVIqw R6, 2 | CMPI64weq R4, 2 | JMP8cs w | MOVIqw R7, 0 | RET
  w: | PUSHn R6 | CALL32 err | MOVqw R0, R0(+1,+0) | RET'
points error-codes 'R4 int:0..2, R6 int:2..13'
idiom flag 'neutral' '
  MOVIqw R6, 0 | MOVIqw R4, 0
  n: | CMPI64wugte R4, 17 | JMP8cs d | MOVqw R7, R4 | MOVIqw R5, 2 | MULU64 R7, R5 | MOVRELd R5, chars | ADD64 R5, R7
  MOVww R7, @R5 | CMPI64weq R7, 0 | JMP8cs s | MOVIqw R6, 1
  s: | MOVqw R4, R4(+0,+1) | JMP8 n
  d: | MOVqw R4, R6 | MOVIqw R6, 3 | MOVqw R7, R4 | MOVIqw R5, 2 | MULU64 R7, R5 | MOVRELd R5, chars | ADD64 R5, R7
  MOVww @R5, R6 | MOVIqw R7, 0 | RET'
idiom grant-of-two-calls 'neutral' '
  MOVqw R0, R0(-2,-8) | MOVnw R7, @R0(+2,+24) | MOVnw R4, @R0(+3,+24) | CMPI64weq R7, 0 | JMP8cs a | MOVqw R5, R0(+0,+8)
  PUSHn R5 | CALL32EXa @R4(+1,+0) | MOVqw R0, R0(+1,+0) | JMP8 t
  a: | MOVqw R5, R0(+0,+8) | PUSHn R5 | CALL32EXa @R4(+1,+0) | MOVqw R0, R0(+1,+0)
  t: | MOVnw R7, R7 | CMPI64weq R7, 0 | JMP8cc f | MOVnw R4, @R0(+0,+8) | MOVqw R6, @R4
  f: | MOVqw R0, R0(+2,+8) | MOVIqw R7, 0 | RET'
idiom handle-or-zero 'neutral' '
  MOVnw R6, @R0(+2,+16) | MOVnw R7, @R0(+0,+16) | CMPI64weq R7, 0 | JMP8cs w | MOVIqw R6, 0
  w: | MOVnw R4, @R0(+1,+16) | PUSHn R6 | CALL32EXa @R4(+3,+0) | MOVqw R0, R0(+1,+0) | MOVIqw R7, 0 | RET'
idiom hex 'neutral' '
  PUSH64 R1 | PUSH64 R2 | PUSH64 R3 | MOVnw R2, @R0(+0,+40) | MOVIqw R3, 8
  n: | MOVqw R3, R3(-0,-1) | MOVqw R4, R2 | MOVIqw R5, 15 | AND64 R4, R5 | CMPI64wulte R4, 9 | JMP8cs g
  MOVqw R4, R4(+0,+7)
  g: | MOVqw R6, R4(+0,+48) | MOVqw R7, R3 | MOVIqw R5, 2 | MULU64 R7, R5 | MOVRELd R5, chars | ADD64 R5, R7
  MOVww @R5, R6 | MOVIqw R5, 4 | SHR64 R2, R5 | CMPI64weq R3, 0 | JMP8cc n | POP64 R3 | POP64 R2 | POP64 R1
  MOVIqw R7, 0 | RET'
idiom index-of-max 'neutral' '
  PUSH64 R1 | PUSH64 R2 | PUSH64 R3 | MOVIqw R3, 0 | MOVIqw R2, 0
  n: | CMPI64wugte R3, 17 | JMP8cs d | MOVqw R7, R3 | MOVIqw R5, 2 | MULU64 R7, R5 | MOVRELd R5, chars | ADD64 R5, R7
  MOVww R6, @R5 | CMPI64wugte R6, 100 | JMP8cc s | MOVqw R2, R3
  s: | MOVqw R3, R3(+0,+1) | JMP8 n
  d: | MOVqw R7, R2 | MOVIqw R5, 2 | MULU64 R7, R5 | MOVRELd R5, chars | ADD64 R5, R7 | MOVww R6, @R5 | POP64 R3
  POP64 R2 | POP64 R1 | MOVIqw R7, 0 | RET'
idiom jump-to-test 'neutral' '
  MOVIqw R6, 1 | MOVIqw R4, 0 | JMP8 t
  n: | MOVqw R7, R4 | MOVIqw R5, 2 | MULU64 R7, R5 | MOVRELd R5, chars | ADD64 R5, R7 | MOVww @R5, R6
  MOVqw R4, R4(+0,+1)
  t: | CMPI64wulte R4, 16 | JMP8cs n | MOVIqw R7, 0 | RET'
idiom letters 'neutral' '
  PUSH64 R1 | PUSH64 R2 | PUSH64 R3 | MOVIqw R6, 1 | MOVIqw R3, 0
  n: | CMPI64wugte R3, 16 | JMP8cs d | CMPI64wugte R3, 10 | JMP8cs l | MOVqw R7, R3 | MOVIqw R5, 2 | MULU64 R7, R5
  MOVRELd R5, ten | ADD64 R5, R7 | MOVww @R5, R6 | JMP8 p
  l: | MOVqw R4, R3(-0,-10) | MOVqw R7, R4 | MOVIqw R5, 2 | MULU64 R7, R5 | MOVRELd R5, ten | ADD64 R5, R7
  MOVww @R5, R6
  p: | MOVqw R3, R3(+0,+1) | JMP8 n
  d: | POP64 R3 | POP64 R2 | POP64 R1 | MOVIqw R7, 0 | RET'
idiom list 'neutral' '
  MOVnw R4, @R0(+1,+16) | MOVnw R4, @R4(+2,+0)
  n: | CMPI64weq R4, 0 | JMP8cs d | MOVqw R6, @R4 | MOVnw R4, @R4(+0,+8) | JMP8 n
  d: | MOVIqw R7, 0 | RET'
idiom list-last 'neutral' '
  MOVnw R4, @R0(+1,+16) | MOVnw R4, @R4(+2,+0) | MOVIqw R5, 0
  n: | CMPI64weq R4, 0 | JMP8cs d | MOVqw R5, R4 | MOVnw R4, @R4(+0,+8) | JMP8 n
  d: | CMPI64weq R5, 0 | JMP8cs z | MOVqw R6, @R5
  z: | MOVIqw R7, 0 | RET'
idiom long-do-while 'neutral' '
  MOVIqw R6, 1 | MOVIqw R4, 0
  n: | MOVqw R7, R4 | MOVRELd R5, bytes | ADD64 R5, R7 | MOVbw @R5, R6 | MOVqw R4, R4(+0,+1) | CMPI64wugte R4, 256
  JMP8cc n | MOVIqw R7, 0 | RET'
idiom long-loop 'neutral' '
  MOVIqw R6, 1 | MOVIqw R4, 0
  n: | CMPI64wugte R4, 256 | JMP8cs d | MOVqw R7, R4 | MOVRELd R5, bytes | ADD64 R5, R7 | MOVbw @R5, R6
  MOVqw R4, R4(+0,+1) | JMP8 n
  d: | MOVIqw R7, 0 | RET'
idiom max 'neutral' '
  MOVIqw R6, 0 | MOVIqw R4, 0
  n: | CMPI64wugte R4, 16 | JMP8cs d | MOVqw R7, R4 | MOVIqw R5, 4 | MULU64 R7, R5 | MOVRELd R5, dwords | ADD64 R5, R7
  MOVdw R7, @R5 | CMP64ulte R7, R6 | JMP8cs s | MOVqw R6, R7
  s: | MOVqw R4, R4(+0,+1) | JMP8 n
  d: | MOVRELd R5, dwords | MOVdw @R5, R6 | MOVIqw R7, 0 | RET'
idiom mid-exit 'neutral' '
  MOVIqw R6, 1 | MOVIqw R4, 0
  n: | MOVqw R4, R4(+0,+1) | CMPI64wugte R4, 17 | JMP8cs d | MOVqw R7, R4 | MOVIqw R5, 2 | MULU64 R7, R5
  MOVRELd R5, chars | ADD64 R5, R7 | MOVww @R5, R6 | JMP8 n
  d: | MOVIqw R7, 0 | RET'
idiom nested 'neutral' '
  PUSH64 R1 | PUSH64 R2 | PUSH64 R3 | MOVIqw R6, 1 | MOVIqw R2, 0
  o: | CMPI64wugte R2, 4 | JMP8cs d | MOVIqw R3, 0
  i: | CMPI64wugte R3, 4 | JMP8cs e | MOVqw R4, R2 | MOVIqw R5, 4 | MULU64 R4, R5 | ADD64 R4, R3 | MOVqw R7, R4
  MOVIqw R5, 2 | MULU64 R7, R5 | MOVRELd R5, chars | ADD64 R5, R7 | MOVww @R5, R6 | MOVqw R3, R3(+0,+1) | JMP8 i
  e: | MOVqw R2, R2(+0,+1) | JMP8 o
  d: | POP64 R3 | POP64 R2 | POP64 R1 | MOVIqw R7, 0 | RET'
idiom product-index 'neutral' '
  PUSH64 R1 | PUSH64 R2 | PUSH64 R3 | MOVIqw R6, 1 | MOVIqw R3, 0
  n: | CMPI64wugte R3, 4 | JMP8cs d | MOVqw R4, R3 | MOVIqw R5, 5 | MULU64 R4, R5 | MOVqw R7, R4 | MOVIqw R5, 2
  MULU64 R7, R5 | MOVRELd R5, chars | ADD64 R5, R7 | MOVww @R5, R6 | MOVqw R3, R3(+0,+1) | JMP8 n
  d: | POP64 R3 | POP64 R2 | POP64 R1 | MOVIqw R7, 0 | RET'
idiom_with 'int:1..16' result-code 'neutral' '
  MOVIqw R7, 1
  n: | CMPI64wugte R7, 16 | JMP8cs d | MOVnw R4, @R0(+0,+16) | CMP64eq R4, R7 | JMP8cs d | MOVqw R7, R7(+0,+1) | JMP8 n
  d: | RET'
points result-code 'R7 int:1..16
R7 int:1..16'
idiom retry 'neutral' '
  PUSH64 R1 | PUSH64 R2 | PUSH64 R3 | MOVIqw R3, 3
  n: | CMPI64weq R3, 0 | JMP8cs f | MOVqw R3, R3(-0,-1) | MOVnw R4, @R0(+1,+40) | MOVnw R5, @R0(+2,+40) | PUSHn R5
  CALL32EXa @R4(+3,+0) | MOVqw R0, R0(+1,+0) | MOVnw R7, R7 | CMPI64weq R7, 0 | JMP8cc n | MOVqw R4, R3 | MOVIqw R6, 1
  MOVqw R7, R4 | MOVIqw R5, 2 | MULU64 R7, R5 | MOVRELd R5, ten | ADD64 R5, R7 | MOVww @R5, R6
  f: | POP64 R3 | POP64 R2 | POP64 R1 | MOVIqw R7, 0 | RET'
idiom reverse-copy 'neutral' '
  PUSH64 R1 | PUSH64 R2 | PUSH64 R3 | MOVIqw R3, 0
  n: | CMPI64wugte R3, 17 | JMP8cs d | MOVqw R7, R3 | MOVIqw R5, 2 | MULU64 R7, R5 | MOVRELd R5, chars | ADD64 R5, R7
  MOVww R6, @R5 | MOVIqw R4, 16 | SUB64 R4, R3 | MOVqw R7, R4 | MOVIqw R5, 2 | MULU64 R7, R5 | MOVRELd R5, chars
  ADD64 R5, R7 | MOVww @R5, R6 | MOVqw R3, R3(+0,+1) | JMP8 n
  d: | POP64 R3 | POP64 R2 | POP64 R1 | MOVIqw R7, 0 | RET'
idiom ring 'neutral' '
  PUSH64 R1 | PUSH64 R2 | PUSH64 R3 | MOVIqw R6, 1 | MOVIqw R4, 0 | MOVIqw R3, 0
  n: | CMPI64wugte R3, 100 | JMP8cs d | MOVqw R7, R4 | MOVIqw R5, 2 | MULU64 R7, R5 | MOVRELd R5, chars | ADD64 R5, R7
  MOVww @R5, R6 | MOVqw R4, R4(+0,+1) | MOVIqw R5, 15 | AND64 R4, R5 | MOVqw R3, R3(+0,+1) | JMP8 n
  d: | POP64 R3 | POP64 R2 | POP64 R1 | MOVIqw R7, 0 | RET'
idiom search-break 'neutral' '
  MOVIqw R4, 0
  n: | CMPI64wugte R4, 17 | JMP8cs none | MOVqw R7, R4 | MOVIqw R5, 2 | MULU64 R7, R5 | MOVRELd R5, chars | ADD64 R5, R7
  MOVww R6, @R5 | CMPI64weq R6, 65 | JMP8cs found | MOVqw R4, R4(+0,+1) | JMP8 n
  found: | MOVIqw R6, 1 | MOVqw R7, R4 | MOVIqw R5, 2 | MULU64 R7, R5 | MOVRELd R5, chars | ADD64 R5, R7 | MOVww @R5, R6
  none: | MOVIqw R7, 0 | RET'
idiom second-loop-head 'neutral' '
  PUSH64 R1 | PUSH64 R2 | PUSH64 R3 | MOVIqw R6, 1 | MOVIqw R4, 0 | MOVIqw R3, 0
  n: | CMPI64wugte R4, 16 | JMP8cs d | MOVqw R7, R4 | MOVIqw R5, 2 | MULU64 R7, R5 | MOVRELd R5, chars | ADD64 R5, R7
  MOVww @R5, R6 | MOVqw R4, R4(+0,+1) | JMP8 n
  d: | CMPI64wugte R3, 5 | JMP8cs e | MOVqw R2, R4(-0,-10) | MOVqw R7, R2 | MOVIqw R5, 2 | MULU64 R7, R5
  MOVRELd R5, ten | ADD64 R5, R7 | MOVww @R5, R6 | MOVqw R3, R3(+0,+1) | JMP8 d
  e: | POP64 R3 | POP64 R2 | POP64 R1 | MOVIqw R7, 0 | RET'
idiom skip-some 'neutral' '
  PUSH64 R1 | PUSH64 R2 | PUSH64 R3 | MOVIqw R6, 1 | MOVIqw R4, 0 | MOVIqw R3, 0
  n: | CMPI64wugte R3, 17 | JMP8cs d | MOVqw R7, R3 | MOVIqw R5, 2 | MULU64 R7, R5 | MOVRELd R5, chars | ADD64 R5, R7
  MOVww R7, @R5 | CMPI64weq R7, 0 | JMP8cs s | CMPI64wugte R4, 17 | JMP8cs d | MOVqw R7, R4 | MOVIqw R5, 2
  MULU64 R7, R5 | MOVRELd R5, chars | ADD64 R5, R7 | MOVww @R5, R6 | MOVqw R4, R4(+0,+1)
  s: | MOVqw R3, R3(+0,+1) | JMP8 n
  d: | POP64 R3 | POP64 R2 | POP64 R1 | MOVIqw R7, 0 | RET'
idiom step-two 'neutral' '
  MOVIqw R6, 1 | MOVIqw R4, 0
  n: | CMPI64wugte R4, 16 | JMP8cs d | MOVqw R7, R4 | MOVIqw R5, 2 | MULU64 R7, R5 | MOVRELd R5, chars | ADD64 R5, R7
  MOVww @R5, R6 | MOVqw R4, R4(+0,+2) | JMP8 n
  d: | MOVIqw R7, 0 | RET'
idiom strlen-bounded 'neutral' '
  MOVIqw R4, 0
  n: | CMPI64wugte R4, 16 | JMP8cs d | MOVqw R7, R4 | MOVIqw R5, 2 | MULU64 R7, R5 | MOVRELd R5, chars | ADD64 R5, R7
  MOVww R6, @R5 | CMPI64weq R6, 0 | JMP8cs d | MOVqw R4, R4(+0,+1) | JMP8 n
  d: | MOVIqw R6, 1 | MOVqw R7, R4 | MOVIqw R5, 2 | MULU64 R7, R5 | MOVRELd R5, chars | ADD64 R5, R7 | MOVww @R5, R6
  MOVIqw R7, 0 | RET'
idiom sum 'neutral' '
  MOVIqw R6, 0 | MOVIqw R4, 0
  n: | CMPI64wugte R4, 17 | JMP8cs d | MOVqw R7, R4 | MOVIqw R5, 2 | MULU64 R7, R5 | MOVRELd R5, chars | ADD64 R5, R7
  MOVww R7, @R5 | ADD64 R6, R7 | MOVqw R4, R4(+0,+1) | JMP8 n
  d: | MOVIqw R7, 0 | RET'
idiom switch 'neutral' '
  MOVIqw R6, 1 | MOVnw R7, @R0(+0,+16) | CMPI64weq R7, 0 | JMP8cs a | CMPI64weq R7, 1 | JMP8cs b | MOVIqw R4, 2 | JMP8 w
  a: | MOVIqw R4, 5 | JMP8 w
  b: | MOVIqw R4, 7
  w: | MOVqw R7, R4 | MOVIqw R5, 2 | MULU64 R7, R5 | MOVRELd R5, chars | ADD64 R5, R7 | MOVww @R5, R6 | MOVIqw R7, 0
  RET'
idiom two-constants-index 'neutral' '
  MOVIqw R6, 1 | MOVnw R7, @R0(+0,+16) | MOVIqw R4, 3 | CMPI64weq R7, 0 | JMP8cs w | MOVIqw R4, 9
  w: | MOVqw R7, R4 | MOVIqw R5, 2 | MULU64 R7, R5 | MOVRELd R5, chars | ADD64 R5, R7 | MOVww @R5, R6 | MOVIqw R7, 0
  RET'
idiom two-strings-index 'neutral' '
  MOVnw R7, @R0(+0,+16) | MOVRELd R6, chars | CMPI64weq R7, 0 | JMP8cs w | MOVRELd R6, ten
  w: | MOVqw R6, R6(+0,+0) | MOVIqw R7, 18 | ADD64 R6, R7 | MOVww R7, @R6 | MOVIqw R7, 0 | RET'
idiom two-strings-out 'neutral' '
  MOVnw R7, @R0(+0,+16) | MOVRELd R6, chars | CMPI64weq R7, 0 | JMP8cs w | MOVRELd R6, ten
  w: | MOVnw R4, @R0(+1,+16) | PUSHn R6 | PUSHn R4 | CALL32EXa @R4 | MOVqw R0, R0(+2,+0) | MOVnw R7, R7 | RET'
points two-strings-out 'R6 ptr:Char16*10, R7 int:0..100'
idiom while 'neutral' '
  MOVIqw R6, 1 | MOVIqw R4, 0
  n: | CMPI64wugte R4, 17 | JMP8cs d | MOVqw R7, R4 | MOVIqw R5, 2 | MULU64 R7, R5 | MOVRELd R5, chars | ADD64 R5, R7
  MOVww @R5, R6 | MOVqw R4, R4(+0,+1) | JMP8 n
  d: | MOVIqw R7, 0 | RET'
idiom while-if-else 'neutral' '
  MOVIqw R4, 0
  n: | CMPI64wugte R4, 17 | JMP8cs d | CMPI64wugte R4, 10 | JMP8cs l | MOVIqw R6, 48 | JMP8 p
  l: | MOVIqw R6, 87
  p: | MOVqw R7, R4 | MOVIqw R5, 2 | MULU64 R7, R5 | MOVRELd R5, chars | ADD64 R5, R7 | MOVww @R5, R6
  MOVqw R4, R4(+0,+1) | JMP8 n
  d: | MOVIqw R7, 0 | RET'
points while-if-else 'R4 int:0..17
R4 int:10..16
R4 int:0..16, R6 int:48..87/3
R4 int:17..17'

# The points of `infer` serve where those of the search do not: a branch that cannot be taken keeps its type.

idiom dead-null 'neutral' '
  MOVqw R0, R0(-2,-8) | MOVnw R4, @R0(+2,+24) | MOVIqw R6, 12 | CMPI64weq R4, 1 | JMP8cs w | MOVIqw R6, 13
  w: | MOVnw R4, @R0(+3,+24) | CMPI64weq R6, 0 | JMP8cc d | MOVnw @R4(+2,+0), R6
  d: | MOVqw R0, R0(+2,+8) | MOVIqw R7, 0 | RET'

# What the rules do not tell: a bound in a register, a pointer that walks, two numbers that go together.

idiom binary-search 'refused 0000102c address' '
  PUSH64 R1 | PUSH64 R2 | PUSH64 R3 | MOVIqw R2, 0 | MOVIqw R3, 17
  n: | CMP64ulte R3, R2 | JMP8cs d | MOVqw R4, R2 | ADD64 R4, R3 | MOVIqw R5, 1 | SHR64 R4, R5 | MOVqw R7, R4
  MOVIqw R5, 2 | MULU64 R7, R5 | MOVRELd R5, chars | ADD64 R5, R7 | MOVww R6, @R5 | CMPI64wugte R6, 99 | JMP8cs up
  MOVqw R2, R4(+0,+1) | JMP8 n
  up: | MOVqw R3, R4 | JMP8 n
  d: | POP64 R3 | POP64 R2 | POP64 R1 | MOVIqw R7, 0 | RET'
idiom bound-32 'refused 0000101e address' '
  MOVIqw R6, 1 | MOVIqw R4, 0
  n: | CMPI32wugte R4, 17 | JMP8cs d | MOVqw R7, R4 | MOVIqw R5, 2 | MULU64 R7, R5 | MOVRELd R5, chars | ADD64 R5, R7
  MOVww @R5, R6 | MOVqw R4, R4(+0,+1) | JMP8 n
  d: | MOVIqw R7, 0 | RET'
idiom bound-in-register 'refused 00001026 address' '
  PUSH64 R1 | PUSH64 R2 | PUSH64 R3 | MOVIqw R6, 1 | MOVIqw R4, 0 | MOVIqw R2, 16
  n: | CMP64ulte R4, R2 | JMP8cc d | MOVqw R7, R4 | MOVIqw R5, 2 | MULU64 R7, R5 | MOVRELd R5, chars | ADD64 R5, R7
  MOVww @R5, R6 | MOVqw R4, R4(+0,+1) | JMP8 n
  d: | POP64 R3 | POP64 R2 | POP64 R1 | MOVIqw R7, 0 | RET'
idiom bound-of-copy 'refused 00001026 address' '
  PUSH64 R1 | PUSH64 R2 | PUSH64 R3 | MOVIqw R6, 1 | MOVIqw R4, 0
  n: | MOVqw R3, R4 | CMPI64wugte R3, 17 | JMP8cs d | MOVqw R7, R4 | MOVIqw R5, 2 | MULU64 R7, R5 | MOVRELd R5, chars
  ADD64 R5, R7 | MOVww @R5, R6 | MOVqw R4, R4(+0,+1) | JMP8 n
  d: | POP64 R3 | POP64 R2 | POP64 R1 | MOVIqw R7, 0 | RET'
idiom bound-of-parameter 'refused 0000102c address' '
  PUSH64 R1 | PUSH64 R2 | PUSH64 R3 | MOVIqw R6, 1 | MOVIqw R4, 0 | MOVnw R2, @R0(+0,+40) | MOVIqw R5, 16 | AND64 R2, R5
  n: | CMP64ulte R4, R2 | JMP8cc d | MOVqw R7, R4 | MOVIqw R5, 2 | MULU64 R7, R5 | MOVRELd R5, chars | ADD64 R5, R7
  MOVww @R5, R6 | MOVqw R4, R4(+0,+1) | JMP8 n
  d: | POP64 R3 | POP64 R2 | POP64 R1 | MOVIqw R7, 0 | RET'
idiom grant-or-written 'refused 00001038 unwritten' '
  MOVqw R0, R0(-2,-8) | MOVnw R7, @R0(+2,+24) | MOVnw R4, @R0(+3,+24) | MOVnw R5, @R4(+2,+0) | CMPI64weq R5, 0
  JMP8cs a | MOVnw @R0(+0,+8), R5 | MOVIqw R7, 0 | JMP8 t
  a: | MOVqw R5, R0(+0,+8) | PUSHn R5 | CALL32EXa @R4(+1,+0) | MOVqw R0, R0(+1,+0) | MOVnw R7, R7
  t: | CMPI64weq R7, 0 | JMP8cc f | MOVnw R4, @R0(+0,+8) | MOVqw R6, @R4
  f: | MOVqw R0, R0(+2,+8) | MOVIqw R7, 0 | RET'
idiom inner-to-outer 'refused 0000102c address' '
  PUSH64 R1 | PUSH64 R2 | PUSH64 R3 | MOVIqw R6, 1 | MOVIqw R2, 0
  o: | CMPI64wugte R2, 16 | JMP8cs d | MOVIqw R4, 0
  i: | CMP64ulte R4, R2 | JMP8cc e | MOVqw R7, R4 | MOVIqw R5, 2 | MULU64 R7, R5 | MOVRELd R5, chars | ADD64 R5, R7
  MOVww @R5, R6 | MOVqw R4, R4(+0,+1) | JMP8 i
  e: | MOVqw R2, R2(+0,+1) | JMP8 o
  d: | POP64 R3 | POP64 R2 | POP64 R1 | MOVIqw R7, 0 | RET'
idiom two-counters 'refused 00001028 address' '
  PUSH64 R1 | PUSH64 R2 | PUSH64 R3 | MOVIqw R6, 1 | MOVIqw R4, 0 | MOVIqw R3, 0
  n: | CMPI64wugte R3, 17 | JMP8cs d | MOVqw R7, R4 | MOVIqw R5, 2 | MULU64 R7, R5 | MOVRELd R5, chars | ADD64 R5, R7
  MOVww @R5, R6 | MOVqw R4, R4(+0,+1) | MOVqw R3, R3(+0,+1) | JMP8 n
  d: | POP64 R3 | POP64 R2 | POP64 R1 | MOVIqw R7, 0 | RET'
idiom two-shapes-out 'refused 0000101e arguments' '
  MOVnw R7, @R0(+0,+16) | MOVRELd R6, chars | CMPI64weq R7, 0 | JMP8cs w | MOVRELd R6, bytes
  w: | MOVnw R4, @R0(+1,+16) | PUSHn R6 | PUSHn R4 | CALL32EXa @R4 | MOVqw R0, R0(+2,+0) | MOVnw R7, R7 | RET'
idiom walk-count 'refused 00001014 address' '
  MOVIqw R6, 1 | MOVRELd R5, chars | MOVIqw R4, 0
  n: | CMPI64wugte R4, 17 | JMP8cs d | MOVww @R5, R6 | MOVqw R5, R5(+0,+2) | MOVqw R4, R4(+0,+1) | JMP8 n
  d: | MOVIqw R7, 0 | RET'
idiom walk-count-add 'refused 00001018 address' '
  MOVIqw R6, 1 | MOVRELd R5, chars | MOVIqw R4, 0 | MOVIqw R7, 2
  n: | CMPI64wugte R4, 16 | JMP8cs d | MOVww @R5, R6 | ADD64 R5, R7 | MOVqw R4, R4(+0,+1) | JMP8 n
  d: | MOVIqw R7, 0 | RET'
idiom walk-end 'refused 00001010 compare' '
  MOVIqw R6, 1 | MOVRELd R5, chars | MOVRELd R4, ten
  n: | CMP64eq R5, R4 | JMP8cs d | MOVww @R5, R6 | MOVqw R5, R5(+0,+2) | JMP8 n
  d: | MOVIqw R7, 0 | RET'
idiom walk-string 'refused 0000100a address' '
  MOVRELd R5, chars | MOVIqw R4, 0
  n: | MOVww R6, @R5 | CMPI64weq R6, 0 | JMP8cs d | MOVqw R5, R5(+0,+2) | MOVqw R4, R4(+0,+1) | JMP8 n
  d: | MOVIqw R7, 0 | RET'

[ "$failed" = 0 ]
