# Rows of what `ebc` says of each cause of a rule, for slips.sh, which reads this file: shellcheck shell=bash

edit driver.notes 'end = 0x104A' 'end = 0x1044'
slip 'a function that ends where it begins' 1 'refused 00001044 function' $check <<'.'
driver.efi: 0x1044: error: function: tick begins at 0x1044 and ends at 0x1044, which isn't past it
driver.notes:40:1: note: the function, function[1].end = 0x1044
  see docs/RULES.md, "The verdict", function
.
edit driver.notes 'place = 0x1044' 'place = 0x1045'
slip 'a function at an odd place' 1 'refused 00001045 function' $check <<'.'
driver.efi: tick+0x0: error: function: tick begins at 0x1045, which is odd
driver.notes:39:1: note: the function, function[1].place = 0x1045
  see docs/RULES.md, "The verdict", function
.
patch out.efi driver.efi 104 '\x06\x10'
slip 'an image that is entered elsewhere' 1 'refused 00001000 function' check out.efi driver.notes <<'.'
out.efi: main+0x0: error: function: main is the entry function and begins at 0x1000, and the image is entered at 0x1006
driver.notes:29:1: note: the function, function[0].place = 0x1000
  see docs/RULES.md, "The verdict", function
.
edit driver.notes 'end = 0x1044' 'end = 0x1046'
slip 'a function in the one before' 1 'refused 00001044 function' $check <<'.'
driver.efi: main+0x44: error: function: tick begins at 0x1044, before the function before ends, at 0x1046
driver.notes:39:1: note: the function, function[1].place = 0x1044
  see docs/RULES.md, "The verdict", function
.
edit driver.notes 'place = 0x2000' 'place = 0x3000'
slip 'a thunk cell outside the image' 1 'refused 00003000 static' $check <<'.'
driver.efi: 0x3000: error: static: the thunk cell goes up to 0x3008, and the image ends at 0x3000
driver.notes:24:1: note: the thunk cell, thunk[0].place = 0x3000
  see docs/RULES.md, "The verdict", static
.
patch out.efi driver.efi 1028 '\x01'
slip 'a thunk cell that ends with other bytes' 1 'refused 00002000 static' check out.efi driver.notes <<'.'
out.efi: 0x2000: error: static: the last four bytes of the thunk cell aren't 0
driver.notes:24:1: note: the thunk cell, thunk[0].place = 0x2000
  see docs/RULES.md, "The verdict", static
.
while read -r bytes shown words; do
  patch out.efi driver.efi 580 "$bytes"
  slip "decode: $words" 1 'refused 00001044 decode' check out.efi driver.notes <<.
out.efi: tick+0x0: error: decode: the bytes ${shown//-/ } $words
driver.notes:40:1: note: the function's end, function[1].end = 0x104A
  see docs/RULES.md, "The verdict", decode
.
done <<'.'
\x27 27-37-00-00 begin with no opcode
\x04\x01 04-01-00-00 have a reserved bit that isn't as it has to be
\x9d\x54 9d-54-00-00 have an index beside a direct operand 1
\x60\x54\x00\x70 60-54-00-70 have a 16-bit index with tag 7
.
in_tick 10 'JMP64a 8'
made
slip 'JMP64a to a number' 1 'refused 00001044 relocation' check out.efi driver.notes <<'.'
out.efi: tick+0x0: error: relocation: an absolute JMP64 or CALL64 goes to a name, by a relocated immediate; this one has no relocation
  0x1044 JMP64a 8
  see docs/RULES.md, "The verdict", relocation
.

# ---- shape

edit driver.notes '"count 0 0 i32", "next 1 0 ptr?:Blk"' '"next 0 0 ptr?:Blk", "count 0 4 i32"'
slip 'fields that overlap where a pointer has 8 bytes' 1 'refused 00000001 shape' $check <<'.'
driver.efi: error: shape: where a pointer has 8 bytes, the fields next at (0, 0) and count at (0, 4) of Blk share a byte
driver.notes:15:1: note: the shape, shape[1].fields = ["next 0 0 ptr?:Blk", "count 0 4 i32"]
  see docs/RULES.md, "The verdict", shape
.
edit driver.notes 'size = [1, 0]' 'size = [0, 0]'
slip 'a shape of no size' 1 'refused 00000002 shape' $check <<'.'
driver.efi: error: shape: L has size (0, 0), 0 bytes where a pointer has 4
driver.notes:20:1: note: the shape, shape[2].size = [0, 0]
  see docs/RULES.md, "The verdict", shape
.

# ---- static

# A static object D of this place, size and fields, with lines of the source for the bytes from 0x2008 on; then the image of both.
held() {
  edit driver.asm 'cell: .thunk tick' $'cell: .thunk tick\n'"$4"
  printf '[[shape]]\nname = "D"\nsize = %s\nfields = %s\n[[static]]\nplace = %s\nshape = "D"\ncount = 1\n' "$2" "$3" "$1" >>driver.notes
  made
}
while IFS='|' read -r place at words; do
  held "$place" '[0, 4]' '["x 0 0 i32"]' '.dd 0'
  slip "static: $words" 1 "refused $(printf %08x "$place") static" check out.efi driver.notes <<.
out.efi: $at: error: static: the static object of D goes up to $words
driver.notes:79:1: note: the static object, static[0].place = $place
  see docs/RULES.md, "The verdict", static
.
done <<'.'
0x2ffe|0x2ffe|0x3002, and the image ends at 0x3000
0x1046|tick+0x2|0x104a, and function[1] from 0x1044 up to 0x104a; they share bytes; what isn't code stands in the source behind .data
0x2006|0x2006|0x200a, and thunk[0] from 0x2000 up to 0x2008; they share bytes
.
held 0x2008 '[0, 4]' '["x 0 0 i32"]' '.dq 0'
printf '[[static]]\nplace = 0x200a\nshape = "D"\ncount = 1\n' >>driver.notes
slip 'a static object over another' 1 'refused 00002008 static' check out.efi driver.notes <<'.'
out.efi: 0x2008: error: static: the static object of D goes up to 0x200c, and static[1] from 0x200a up to 0x200e; they share bytes
driver.notes:79:1: note: the static object, static[0].place = 0x2008
  see docs/RULES.md, "The verdict", static
.
while IFS='|' read -r size fields bytes words; do
  held 0x2008 "$size" "$fields" "$bytes"
  slip "static: $words" 1 'refused 00002008 static' check out.efi driver.notes <<.
out.efi: 0x2008: error: static: $words
driver.notes:79:1: note: the static object, static[0].place = 0x2008
  see docs/RULES.md, "The verdict", static
.
done <<'.'
[1, 0]|["x 0 0 n"]|.dd 0, 7|D depends on the width, and the byte at 0x200c is 07, where 0 is wanted
[1, 0]|["x 0 0 n"]|.dq cell|D depends on the width, and a relocation stands at 0x2008, where none is wanted; .dq NAME fills a cell p64 or p64? alone
[1, 0]|["x 0 0 ptr?:D"]|.dq cell|D depends on the width, and a relocation stands at 0x2008, where none is wanted; .dq NAME fills a cell p64 or p64? alone
[1, 0]|["m 0 0 method:Locate"]|.dq 0|D has the method cell m, which an image can't hold
[1, 0]|["b 0 0 ptr:Blk"]|.dq 0|D depends on the width, and its field b may not be null, which an image can't hold
[0, 8]|["q 0 0 p64?:D"]|.dq 7|the p64 cell q at 0x2008 isn't 0 and has no relocation; an address in data is made by .dq NAME
[0, 8]|["q 0 0 p64:D"]|.dq 0|the p64 cell q at 0x2008 is 0, and may not be null; the relocated address of a static object is wanted
[0, 8]|["q 0 0 p64:D"]|.dq cell|the p64 cell q at 0x2008 is the address of 0x2000, where no static object of 1 D starts
[0, 8]|["q 0 0 p64:D*2"]|d: .dq d|the p64 cell q at 0x2008 is the address of 0x2008, where no static object of 2 D starts
[0, 8]|["x 0 0 i64"]|.dq cell|a relocation stands in the static object of D that begins at no p64 cell of it
.
edit driver.asm $'.data\n' ''
edit driver.notes 'place = 0x2000' 'place = 0x104A'
edit driver.notes 'end = 0x104A' 'end = 0x1052'
made
slip '.data forgotten' 1 'refused 0000104a static' check out.efi driver.notes <<'.'
out.efi: tick+0x6: error: static: the thunk cell goes up to 0x1052, and function[1] from 0x1044 up to 0x1052; they share bytes; what isn't code stands in the source behind .data
driver.notes:24:1: note: the thunk cell, thunk[0].place = 0x104A
  see docs/RULES.md, "The verdict", static
.
edit driver.notes 'place = 0x2000' 'place = 0x1040'
slip 'a thunk cell over a function' 1 'refused 00001040 static' $check <<'.'
driver.efi: main+0x40: error: static: the thunk cell goes up to 0x1048, and function[0] from 0x1000 up to 0x1044; they share bytes; what isn't code stands in the source behind .data
driver.notes:24:1: note: the thunk cell, thunk[0].place = 0x1040
  see docs/RULES.md, "The verdict", static
.
# The state there is no matter of the rule.
edit driver.notes 'place = 0x2000' 'place = 0x1006'
slip 'a thunk cell at an instruction' 1 'refused 00001006 static' $check <<'.'
driver.efi: main+0x6: error: static: the thunk cell goes up to 0x100e, and function[0] from 0x1000 up to 0x1044; they share bytes; what isn't code stands in the source behind .data
  0x1006 BREAK 5
driver.notes:24:1: note: the thunk cell, thunk[0].place = 0x1006
  see docs/RULES.md, "The verdict", static
.
printf '[[thunk]]\nplace = 0x2004\nfunction = "tick"\n' >>driver.notes
slip 'a thunk cell over another' 1 'refused 00002000 static' $check <<'.'
driver.efi: 0x2000: error: static: the thunk cell goes up to 0x2008, and thunk[1] from 0x2004 up to 0x200c; they share bytes
driver.notes:24:1: note: the thunk cell, thunk[0].place = 0x2000
  see docs/RULES.md, "The verdict", static
.
# (the place of `tick` less that behind the four bytes, 0x1044 - 0x2004)
edit driver.asm 'cell: .thunk tick' $'cell: .dd 0xfffff040\n.dq cell'
made
slip 'a thunk cell with a relocation' 1 'refused 00002000 static' check out.efi driver.notes <<'.'
out.efi: 0x2000: error: static: a relocation stands at 0x2004, in the thunk cell, where none is wanted
driver.notes:24:1: note: the thunk cell, thunk[0].place = 0x2000
  see docs/RULES.md, "The verdict", static
.

# ---- relocation, target, site

in_tick 10 'MOVIqq R4, tick'
made
patch far.efi out.efi 582 '\x00\x00\x09\x00'
slip 'an address outside the image' 1 'refused 00001044 relocation' check far.efi driver.notes <<'.'
far.efi: tick+0x0: error: relocation: the relocated address at 0x1046 names 0x80000, no place of the image, which ends at 0x4000
  0x1044 MOVIqq R4, 589824
  see docs/RULES.md, "The verdict", relocation
.
in_tick 10 'MOVIqq @R4, tick'
made
slip 'a relocation of a move to memory' 1 'refused 00001044 relocation' check out.efi driver.notes <<'.'
out.efi: tick+0x0: error: relocation: a relocation stands at 0x1046; only the immediate of MOVIqq to a register, of JMP64a and of CALL64a has one
  0x1044 MOVIqq @R4, 69700
  see docs/RULES.md, "The verdict", relocation
.
in_tick 10 'JMP64a tick'
made
slip 'JMP64a to a place without a point' 1 'refused 00001044 target' check out.efi driver.notes <<'.'
out.efi: tick+0x0: error: target: the jump goes to 0x1044, where the notes have no point; tick has points at: none
  0x1044 JMP64a 69700, the address of place 0x1044
  see docs/RULES.md, "The verdict", target
.
in_tick 6 'CALL32 failed'
made
slip 'a call of no function' 1 'refused 00001044 target' check out.efi driver.notes <<'.'
out.efi: tick+0x0: error: target: the call goes to 0x103e, where no function of the notes begins
  0x1044 CALL32 -12
  see docs/RULES.md, "The verdict", target
.
edit driver.notes $'[[site]]\nplace = 0x1014\nsignature = "locate"\n\n[[site]]\nplace = 0x1032\nsignature = "register"\n' ''
slip 'no site' 1 'refused 00001014 site' $check <<'.'
driver.efi: main+0x14: error: site: Locate is called here, at 0x1014, where the notes have no site; main has sites at: none
  0x1014 CALL32EXa @R4
  an edit of the source moves all places behind it; ebc_notes finds them by labels: docs/LABELS.md
  see docs/RULES.md, "The verdict", site
.

# ---- form, stack, thunk

# Instructions of `tick`, each its bytes, its line, its rule, and what is said of it. Nothing is known before it.
while IFS='|' read -r size line rule words; do
  in_tick "$size" "$line"
  made
  slip "$rule: $line" 1 "refused 00001044 $rule" check out.efi driver.notes <<.
out.efi: tick+0x0: error: $rule: $words
  0x1044 $line
  regs
  stack
  written
  made 1
  see docs/RULES.md, "The verdict", $rule
.
done <<'.'
2|BREAK 1|form|BREAK 5 alone is wanted in checked code
2|CALL32a R4|form|a call goes by a relative immediate without a register, or by CALL64a with a name; a native method is called by CALL32EXa
2|CALL32EXa R4|form|R4 is any, and a method is wanted
10|CALL64EXa 8|form|a native call is CALL32EXa on a register but R0, without an immediate, or on what it points to
6|CALL32EXa 8|form|a native call is CALL32EXa on a register but R0, without an immediate, or on what it points to
4|MOVRELw @R4, 4024|form|MOVREL goes to a register
2|PUSHn R0|stack|R0 is pushed; its value is taken by MOVq alone
2|POPn R0|stack|a pop goes to another register than R0, or through one
2|MOVnw R4, R0|stack|R0 is an operand here; its value is taken by MOVq alone, and it is changed by MOVq R0, R0 with an index alone
4|MOVIqw R0, 8|stack|R0 is an operand here; its value is taken by MOVq alone, and it is changed by MOVq R0, R0 with an index alone
4|CMPI64weq R0, 0|stack|R0 is an operand here; its value is taken by MOVq alone, and it is changed by MOVq R0, R0 with an index alone
4|MOVqw R0, R0(-1,-0)|stack|R0 goes down by (1, 0), and tick has no locals
4|MOVqw R0, R0(+1,+0)|stack|R0 goes up by (1, 0), which drops no whole items; the items from the top sum up to (0, 0)
.

# The need of `tick`, and the shape of its locals, if it has any.
needs() { edit driver.notes $'level = 0\nneed = [0, 0]' "level = 0"$'\n'"need = $1${2:+$'\n'locals = \"$2\"}"; }
# A row of an instruction of `tick`: its name; the place and the line; the rule, and what is said; the registers and the items before the
# instruction; and the note of a key, if there is one.
in_state() {
  local at
  at=$(printf 'tick+0x%x' $((0x$2 - 0x1044)))
  made
  slip "$1" 1 "refused 0000$2 $4" check out.efi driver.notes < <(
    printf '%s\n' "out.efi: $at: error: $4: $5" "  0x$2 $3" "  regs${6:+ $6}" "  stack${7:+ $7}" '  written' '  made 1' \
      ${8:+"driver.notes:$8"} "  see docs/RULES.md, \"The verdict\", $4"
  )
}

in_tick 10 'MOVnw R4, @R0(+0,+16)' 'CALL32EXa @R4(+1,+0)'
edit driver.notes '"n int:0..4294967295"' '"n ptr:Blk"'
in_state 'a call of what is no method' 1048 'CALL32EXa @R4(+1,+0)' form 'what is called is ptr?:Blk, and a method is wanted' 'R4 ptr:Blk'
mapfile -t pushes < <(yes 'PUSHn R4' | head -n 65)
in_tick 130 "${pushes[@]}"
needs '[65, 0]'
in_state 'a push past 64 slots' 10c4 'PUSHn R4' stack 'this push makes more than 64 slots' '' "$(yes 'n any' | head -n 64 | paste -sd , | sed 's/,/, /g')"
in_tick 8 'MOVqw R0, R0(-1,-0)' 'MOVqw R0, R0(-1,-0)'
needs '[2, 0]' L
in_state 'the locals twice' 1048 'MOVqw R0, R0(-1,-0)' stack 'R0 goes down by (1, 0), and the locals are there already' '' locals
in_tick 4 'MOVqw R0, R0(-1,-0)'
needs '[0, 4]' L
in_state 'no need for the locals' 1044 'MOVqw R0, R0(-1,-0)' stack 'making the locals makes the items (1, 0), and tick has need (0, 4)' '' '' \
  "42:1: note: the function's need, function[1].need = [0, 4]"
in_tick 6 'MOVqw R0, R0(-1,-0)' 'POPn R4'
needs '[1, 0]' L
in_state 'a pop of the locals' 1048 'POPn R4' stack 'a slot n is popped, and locals is on top' '' locals
in_tick 4 'PUSH32 R4' 'POP32 R4'
needs '[0, 4]'
in_state 'a pop of four bytes that may be no small number' 1046 'POP32 R4' stack \
  'a slot d with numbers below 2147483648 is popped, and d any is on top' '' 'd any'
in_tick 2 'PUSHn R4'
needs '[1, 0]'
in_state 'a return with an item on the stack' 104a RET return 'RET with items on the stack, (1, 0) in all, and none is wanted' 'R7 int:0..0' 'n any'
in_tick 2 'PUSHn R4'
needs '[1, 0]'
printf '[[point]]\nplace = 0x1046\nstack = ["n int:0..5"]\nmade = 1\n' >>driver.notes
in_state 'a point that claims a type of an item' 1044 'PUSHn R4' below \
  'this falls to the point at 0x1046: item 0 from the top is any, and the point wants int:0..5' '' '' \
  '76:1: note: what the point says, point[1].stack = ["n int:0..5"]'

# Of calls of `leaf`, a function after `tick`, which has the level 1 then: the bytes of the lines in `tick`, its need and its locals; the need
# and the parameters of `leaf`; and the lines.
leaf() {
  local end=$((0x104A + $1))
  in_tick "$1" "${@:6}"
  needs "$2" "$3"
  edit driver.asm $'  RET\n.data' $'  RET\nleaf:\n  RET\n.data'
  edit driver.notes $'level = 0\n' $'level = 1\n'
  printf '[[function]]\nname = "leaf"\nplace = %d\nend = %d\nlevel = 0\nneed = %s\nparams = %s\nresult = "any"\n' \
    "$end" $((end + 2)) "$4" "$5" >>driver.notes
}
leaf 8 '[1, 16]' '' '[0, 8]' '["n any"]' 'PUSHn R4' 'CALL32 leaf'
in_state 'a call with too small a need' 1046 'CALL32 6' level \
  'the items (1, 0), the return cell (0, 16) and the need (0, 8) of leaf make (1, 24), and tick has need (1, 16)' '' 'n any' \
  "42:1: note: the function's need, function[1].need = [1, 16]"
while IFS='|' read -r params push item words; do
  leaf 8 '[1, 24]' '' '[0, 0]' "$params" "$push R4" 'CALL32 leaf'
  in_state "arguments: $words" 1046 'CALL32 6' arguments "$words" '' "$item any" \
    "80:1: note: the parameters of the function that is called, function[2].params = $params"
done <<'.'
["q any"]|PUSHn|n|argument 0 is n any, and q any is wanted
["n any"]|PUSH32|d|argument 0 is d any, and n any is wanted
["n int:0..9"]|PUSHn|n|argument 0 is n any, and n int:0..9 is wanted
["n any", "n handle"]|PUSHn|n|argument 1 is not there, and n handle is wanted
["q lent:i32"]|PUSH64|q|argument 0 is q any, and q lent:i32 is wanted
.
leaf 12 '[0, 32]' '' '[0, 8]' '["q any"]' 'PUSH64 R4' 'CALL32 leaf' 'MOVqw R0, R0(+0,+8)'
edit driver.asm $'leaf:\n' $'leaf:\n  PUSH64 @R0(+0,+16)\n'
edit driver.notes 'end = 4184' 'end = 4188'
made
slip 'a parameter that is pushed' 1 'refused 00001056 address' check out.efi driver.notes <<'.'
out.efi: leaf+0x0: error: address: a parameter q any is loaded by a 64-bit form; it is loaded by MOVq, and never stored to
  0x1056 PUSH64 @R0(+0,+16)
  regs
  stack
  written
  made 1
  see docs/RULES.md, "The verdict", address
.
leaf 14 '[2, 16]' L '[0, 0]' '["n lent:i32"]' 'MOVqw R0, R0(-1,-0)' 'MOVqw R5, R0' 'PUSHn R5' 'CALL32 leaf'
in_state 'another cell lent' 104c 'CALL32 6' arguments 'argument 0 is n local:p, and n lent:i32 is wanted' 'R5 local:p' 'n local:p, locals' \
  '81:1: note: the parameters of the function that is called, function[2].params = ["n lent:i32"]'
leaf 14 '[2, 16]' L '[0, 0]' '["n lent:ptr:Blk"]' 'MOVqw R0, R0(-1,-0)' 'MOVqw R5, R0' 'PUSHn R5' 'CALL32 leaf'
in_state 'a local field lent to a function before it is written' 104c 'CALL32 6' unwritten \
  'argument 0 lends the local field p to be read, and it isn'\''t written here; a store to it is wanted before, or a test of the status that grants it' \
  'R5 local:p' 'n local:p, locals' '81:1: note: the parameters of the function that is called, function[2].params = ["n lent:ptr:Blk"]'

# ---- main

edit driver.notes 'params = ["n out:ptr:Blk"]' 'params = ["n inout:ptr:Blk"]'
slip 'a local field lent to a method before it is written' 1 'refused 00001014 unwritten' $check <<'.'
driver.efi: main+0x14: error: unwritten: argument 0 lends the local field p to be read, and it isn't written here; a store to it is wanted before, or a test of the status that grants it
  0x1014 CALL32EXa @R4
  regs R4 ptr:Sys, R5 local:p, R7 thunk:0
  stack n local:p, locals
  written
  made 1
driver.notes:58:1: note: the parameters of the signature, signature[0].params = ["n inout:ptr:Blk"]
  see docs/RULES.md, "The verdict", unwritten
.
while IFS='|' read -r params words; do
  edit driver.notes 'params = ["n entry"]' "params = $params"
  slip "arguments of a method: $words" 1 'refused 00001032 arguments' $check <<.
driver.efi: main+0x32: error: arguments: argument $words is wanted
  0x1032 CALL32EXa @R4(+1,+0)
  regs R4 ptr:Sys, R5 thunk:0, R6 int:0..4294967295, R7 status!p
  stack n entry, locals
  written p
  made 1
driver.notes:64:1: note: the parameters of the signature, signature[1].params = $params
  see docs/RULES.md, "The verdict", arguments
.
done <<'.'
["n int:0..5"]|0 is n entry, and n int:0..5
["n size:1,0"]|0 is n entry, and n size:1,0
["n status"]|0 is n entry, and n status
["n entry", "n entry"]|1 is locals, and n entry
.
# Two bytes in place of BREAK 5, and the call of Locate without its thunk.
edit driver.asm 'BREAK 5' 'MOVqw R7, R7'
made
slip 'a call before the thunks' 1 'refused 00001014 thunk' check out.efi driver.notes <<'.'
out.efi: main+0x14: error: thunk: 0 of the 1 thunks are made here, and a call wants all of them made before
  0x1014 CALL32EXa @R4
  regs R4 ptr:Sys, R5 local:p, R7 thunk:0
  stack n local:p, locals
  written
  made 0
  see docs/RULES.md, "The verdict", thunk
.
edit driver.asm 'BREAK 5' 'PUSHn @R7'
made
slip 'a thunk used before it is made' 1 'refused 00001006 thunk' check out.efi driver.notes <<'.'
out.efi: main+0x6: error: thunk: thunk 0 is used, and 0 of the 1 thunks are made here; BREAK 5 makes them in the order of the notes
  0x1006 PUSHn @R7
  regs R7 thunk:0
  stack
  written
  made 0
  see docs/RULES.md, "The verdict", thunk
.
edit driver.asm 'MOVRELd R7, cell' 'MOVIqd R7, 7'
made
slip 'BREAK 5 of no thunk cell' 1 'refused 00001006 thunk' check out.efi driver.notes <<'.'
out.efi: main+0x6: error: thunk: BREAK 5 makes thunk 0 next, and R7 is int:7..7; thunk:0 is wanted
  0x1006 BREAK 5
  regs R7 int:7..7
  stack
  written
  made 0
  see docs/RULES.md, "The verdict", thunk
.
edit driver.notes '# Where `main` goes on' $'[[point]]\nplace = 0x1000\nmade = 1\n\n# Where `main` goes on'
slip 'a point that claims a thunk at the entry' 1 'refused 00001000 below' $check <<'.'
driver.efi: main+0x0: error: below: the entry state comes to the point at 0x1000: made is 0, and the point wants 1
  0x1000 MOVRELd R7, 4090
  regs
  stack
  written
  made 1
driver.notes:49:1: note: what the point says, point[0].made = 1
  see docs/RULES.md, "The verdict", below
.
edit driver.notes '# Where `main` goes on' $'[[point]]\nplace = 0x1006\nregs = ["R7 thunk:0"]\nmade = 1\n\n# Where `main` goes on'
slip 'a point that claims a thunk before BREAK 5' 1 'refused 00001000 below' $check <<'.'
driver.efi: main+0x0: error: below: this falls to the point at 0x1006: made is 0, and the point wants 1
  0x1000 MOVRELd R7, 4090
  regs
  stack
  written
  made 0
driver.notes:50:1: note: what the point says, point[0].made = 1
  see docs/RULES.md, "The verdict", below
.

# ---- infer

infer='infer out.efi driver.notes'
in_tick 12 'MOVIqw R4, 0' 'CMPI64weq R4, 0' 'JMP8cs skip' 'PUSHn R4' 'skip:'
needs '[1, 0]'
made
slip 'ways with other items' 1 'refused 0000104e below' $infer <<'.'
out.efi: tick+0xa: error: below: this falls to 0x1050 with n int:0..0 on the stack and made 1; another way comes there with other items or another made, and the two don't join
  0x104e PUSHn R4
  regs R4 int:0..0
  stack
  written
  made 1
  see docs/RULES.md, "The verdict", below
.
in_tick 10 'MOVIqw R4, 0' 'CMPI64weq R4, 0' 'JMP8cs 1'
made
slip 'a jump into an instruction' 1 'refused 0000104e point' $infer <<'.'
out.efi: tick+0xa: error: point: the jump at 0x104c goes to 0x1050, inside this instruction, which goes from 0x104e up to 0x1052
  0x104e MOVIqw R7, 0
  see docs/RULES.md, "The verdict", point
.
in_tick 6 'MOVIqw R7, 0' RET
made
slip 'an instruction to which no way leads' 1 'refused 0000104a state' $infer <<'.'
out.efi: tick+0x6: error: state: nothing falls to this instruction, which stands after a RET or a jump, and no jump goes here
  0x104a MOVIqw R7, 0
  see docs/RULES.md, "The verdict", state
.
