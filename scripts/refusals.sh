# Rows of what `ebc` says of notes, of refused images and of runs, for slips.sh, which reads this file: shellcheck shell=bash

# ---- notes

edit driver.notes 'name = "Blk"' 'name = "Blk'
slip 'a missing quote' 3 'bad driver.notes nottoml -' $check <<'.'
driver.notes:13:12: error: this is no TOML: invalid string
  see docs/NOTES.md, "The file" and "Texts"
.
edit driver.notes $'level = 1\n' $'level = 1\nlevel = 1\n'
slip 'a key twice' 3 'bad driver.notes nottoml -' $check <<'.'
driver.notes:32:1: error: this is no TOML: duplicate key
  see docs/NOTES.md, "The file" and "Texts"
.
edit driver.notes $'level = 1\n' $'level = = 1\n'
slip '= twice' 3 'bad driver.notes nottoml -' $check <<'.'
driver.notes:31:9: error: this is no TOML: invalid value, expected a string, number, boolean, date-time, array or inline table
  see docs/NOTES.md, "The file" and "Texts"
.
edit driver.notes '"n handle", "n ptr:Sys"' '"n handle" "n ptr:Sys"'
slip 'a comma forgotten' 3 'bad driver.notes nottoml -' $check <<'.'
driver.notes:34:22: error: this is no TOML: missing comma between array elements, expected `,` or `]`
  see docs/NOTES.md, "The file" and "Texts"
.
printf '# \xff\n' >>driver.notes
slip 'a byte that is not UTF-8' 3 'bad driver.notes nottoml -' $check <<'.'
driver.notes:74:3: error: this is no TOML: invalid UTF-8
  see docs/NOTES.md, "The file" and "Texts"
.
edit driver.notes '"count 0 0 i32"' '"count 0 0 UINT32"'
slip 'a misspelt type: UINT32' 3 'bad driver.notes range shape[1].fields' $check <<'.'
driver.notes:15:11: error: item 0 of shape[1].fields is "count 0 0 UINT32"; wanted: at most 256 texts NAME N C CELL
  CELL is i8, i16, i32, i64, n, stat, handle, entry, ptr:S*K, ptr?:S*K, p64:S*K, p64?:S*K or method:M
  see docs/NOTES.md, "The file" and "Texts"
.
edit driver.notes '"n ptr:Sys"' '"ptr:Sys"'
slip 'a parameter without its kind' 3 'bad driver.notes range function[0].params' $check <<'.'
driver.notes:34:23: error: item 1 of function[0].params is "ptr:Sys"; wanted: at most 16 texts n TYPE or q TYPE
  TYPE is any, int, int:LO..HI, int:LO..HI/DIV, lin:N,C, scaled:N,C,HI, ptr:S*K+N,C, ptr?:S*K+N,C, local:F, lent:CELL, status!F, sstatus!F, mask, handle, entry, method:M, thunk:I or saved:I
  see docs/NOTES.md, "The file" and "Texts"
.
edit driver.notes $'level = 1\n' ''
slip 'level forgotten' 3 'bad driver.notes missing function[0].level' $check <<'.'
driver.notes:27:1: error: function[0] has no key level; wanted: a number from 0 on
  see docs/NOTES.md, "The file" and "Texts"
.
edit driver.notes $'version = 1\n' ''
slip 'version forgotten' 3 'bad driver.notes missing version' $check <<'.'
driver.notes:1:1: error: the text has no key version; wanted: 1 or 2
  if these are notes with labels: the program ebc_notes completes them
  see docs/NOTES.md, "The file" and "Texts"
.
edit driver.notes 'written = []' 'written = ["p", "q"]'
slip 'a local field that is not there' 3 'bad driver.notes range point[0].written' $check <<'.'
driver.notes:52:17: error: item 1 of point[0].written is "q"; wanted: fields of L, the locals of main, which has no q; it has: p
  see docs/NOTES.md, "The conditions"
.
edit driver.notes $'result = "status"\n\n[[function]]' $'resut = "status"\n\n[[function]]'
slip 'a misspelt key that has to be there' 3 'bad driver.notes missing function[0].result' $check <<'.'
driver.notes:27:1: error: function[0] has no key result; wanted: a text TYPE
  keys that don't belong there: resut
  see docs/NOTES.md, "The file" and "Texts"
.
edit driver.notes 'enter = true' 'entr = true'
slip 'a misspelt key that may be left out' 3 'bad driver.notes kind function[1].entr' $check <<'.'
driver.notes:45:1: error: function[1].entr is no key of this table
  see docs/NOTES.md, "The file" and "Texts"
.
edit driver.notes 'size = [1, 0]' 'size = 8'
slip 'a size as one number' 3 'bad driver.notes kind shape[2].size' $check <<'.'
driver.notes:20:1: error: shape[2].size is a number; wanted: a pair [N, C] of numbers from 0 to 4294967295
  see docs/NOTES.md, "The file" and "Texts"
.
edit driver.notes 'place = 0x2000' 'place = "0x2000"'
slip 'a place as a text' 3 'bad driver.notes kind thunk[0].place' $check <<'.'
driver.notes:24:1: error: thunk[0].place is a text; wanted: a number from 0 to 0x3fffff
  see docs/NOTES.md, "The file" and "Texts"
.
edit driver.notes 'function = "tick"' 'function = "tock"'
slip 'a function named that is not there' 3 'bad driver.notes name thunk[0].function' $check <<'.'
driver.notes:25:12: error: thunk[0].function is "tock", which names a function that the notes don't have
  they have: main, tick
  see docs/NOTES.md, "The file" and "Texts"
.
edit driver.notes '"next 1 0 ptr?:Blk"' '"next 1 0 ptr?:Block"'
slip 'a shape named that is not there' 3 'bad driver.notes name shape[1].fields' $check <<'.'
driver.notes:15:28: error: item 1 of shape[1].fields is "next 1 0 ptr?:Block", which names the shape Block that the notes don't have
  they have: Sys, Blk, L
  see docs/NOTES.md, "The file" and "Texts"
.
edit driver.notes 'need = [2, 0]' 'need = [-2, 0]'
slip 'a negative number' 3 'bad driver.notes range function[0].need' $check <<'.'
driver.notes:32:8: error: function[0].need is [-2, 0]; wanted: a pair [N, C] of numbers from 0 on
  see docs/NOTES.md, "The file" and "Texts"
.
edit driver.notes 'version = 1' 'version = 3'
slip 'version 3' 3 'bad driver.notes range version' $check <<'.'
driver.notes:2:11: error: version is 3; wanted: 1 or 2
  see docs/NOTES.md, "The file" and "Texts"
.
edit driver.notes $'signature = "register"\n' $'signature = "register"\n[[point]]\nplace = 4158\nregs = ["R7 status!p"]\nstack = ["locals"]\nwritten = []\nmade = 1\n'
slip 'points twice' 3 'bad driver.notes twice point[1].place' $check <<'.'
driver.notes:75:1: error: point[1].place is 4158, which an earlier table has
driver.notes:49:1: note: point[0].place
  see docs/NOTES.md, "The file" and "Texts"
.
edit driver.notes '"next 1 0 ptr?:Blk"' '"count 1 0 ptr?:Blk"'
slip 'a field twice' 3 'bad driver.notes twice shape[1].fields' $check <<'.'
driver.notes:15:28: error: count again, in item 1 of shape[1].fields; item 0 has it
  see docs/NOTES.md, "The file" and "Texts"
.
edit driver.notes 'place = 0x1044' 'place = 0x0FF0'
slip 'functions out of order' 3 'bad driver.notes range function[1].place' $check <<'.'
driver.notes:39:9: error: function[1].place is 0x0FF0; wanted: more than that of the function before, 0x1000
  see docs/NOTES.md, "The conditions"
.
edit driver.notes 'place = 0x103E' 'place = 0x1100'
slip 'a point in no function' 3 'bad driver.notes range point[0].place' $check <<'.'
driver.notes:49:9: error: point[0].place is 0x1100, which lies in no function; wanted: a place of main, 0x1000 up to 0x1044, or of tick, 0x1044 up to 0x104a
  see docs/NOTES.md, "The conditions"
.
edit driver.notes '"n int:0..4294967295"' '"n int"'
slip 'a parameter that MOVn does not keep' 3 'bad driver.notes range function[1].params' $check <<'.'
driver.notes:43:11: error: item 0 of function[1].params is "n int"; wanted in a natural parameter: numbers below 4294967296, as n int:0..4294967295
  see docs/NOTES.md, "The conditions"
.
edit driver.notes $'need = [0, 0]\nparams = ["n int:0..4294967295"]\nresult = "status"' $'need = [0, 0]\nparams = ["n int:0..4294967295"]\nresult = "handle"'
slip 'a result that the firmware does not take' 3 'bad driver.notes range function[1].result' $check <<'.'
driver.notes:44:10: error: function[1].result is "handle"; wanted, as the firmware enters tick: any, int:LO..HI with HI below 4294967296, or status
  see docs/NOTES.md, "The conditions"
.

edit driver.notes 'need = [2, 0]' $'need = [\n  -2,\n  0\n]'
slip 'a list of several lines' 3 'bad driver.notes range function[0].need' $check <<'.'
driver.notes:32:8: error: function[0].need is [ -2, 0 ]; wanted: a pair [N, C] of numbers from 0 on
  see docs/NOTES.md, "The file" and "Texts"
.
edit driver.notes 'entry = "main"' "entry = \"$long\""
slip 'a name of 200 letters' 3 'bad driver.notes range entry' $check <<.
driver.notes:3:9: error: entry is "${long:0:99}..; wanted: the name of the entry function, a text
  see docs/NOTES.md, "The file" and "Texts"
.
edit driver.notes 'entry = "main"' $'entry = "main"\n'"$long = 1"
slip 'a key of 200 letters' 3 "bad driver.notes kind $long" $check <<.
driver.notes:4:1: error: $cut is no key of this table
  see docs/NOTES.md, "The file" and "Texts"
.
edit driver.notes $'level = 1\n' "$(printf 'k%s = 1\n' {10..79})"$'\n'
slip 'seventy keys that are none' 3 'bad driver.notes missing function[0].level' $check <<.
driver.notes:27:1: error: function[0] has no key level; wanted: a number from 0 on
  keys that don't belong there: $(printf 'k%s, ' {10..73})..
  see docs/NOTES.md, "The file" and "Texts"
.
printf 'version = 1\nentry = "main"\n[[function]]\nname = "main"\nplace = 0x1000\nend = 0x1044\nlevel = 0\nneed = [0, 0]\nparams = ["n ptr:Sys"]\nresult = "any"\n' >driver.notes
slip 'a shape of notes without shapes' 3 'bad driver.notes name function[0].params' $check <<'.'
driver.notes:9:11: error: item 0 of function[0].params is "n ptr:Sys", which names the shape Sys that the notes don't have
  they have none
  see docs/NOTES.md, "The file" and "Texts"
.
edit driver.notes '[[thunk]]' '[thunk]'
slip 'a header in single brackets' 3 'bad driver.notes kind thunk' $check <<'.'
driver.notes:23:1: error: thunk is a table; wanted: a list of tables, each under [[thunk]]
  see docs/NOTES.md, "The file" and "Texts"
.
edit driver.notes '[[site]]' '[site]'
slip 'a header in single brackets before one in double ones' 3 'bad driver.notes nottoml -' $check <<'.'
driver.notes:71:1: error: this is no TOML: duplicate key; the tables of a list stand each under a header in double brackets, as [[static]], and one in single brackets stands once
  see docs/NOTES.md, "The file" and "Texts"
.

# ---- rules

edit driver.notes '"next 1 0 ptr?:Blk"' '"next 0 0 ptr?:Blk"'
slip 'fields overlap' 1 'refused 00000001 shape' $check <<'.'
driver.efi: error: shape: where a pointer has 4 bytes, the fields count at (0, 0) and next at (0, 0) of Blk share a byte
driver.notes:15:1: note: the shape, shape[1].fields = ["count 0 0 i32", "next 0 0 ptr?:Blk"]
  see docs/RULES.md, "The verdict", shape
.
edit driver.notes '"next 1 0 ptr?:Blk"' '"next 0 8 ptr?:Blk"'
slip 'a field that is outside where a pointer has 4 bytes' 1 'refused 00000001 shape' $check <<'.'
driver.efi: error: shape: where a pointer has 4 bytes, the field next at (0, 8) of Blk ends past its size (2, 0)
driver.notes:15:1: note: the shape, shape[1].fields = ["count 0 0 i32", "next 0 8 ptr?:Blk"]
  see docs/RULES.md, "The verdict", shape
.
edit driver.notes 'end = 0x104A' 'end = 0x104C'
slip 'end one instruction too far' 1 'refused 00001044 function' $check <<'.'
driver.efi: tick+0x0: error: function: tick goes from 0x1044 up to 0x104c, outside the bytes of each section: 0x1000 up to 0x104a, 0x2000 up to 0x2008
driver.notes:40:1: note: the function, function[1].end = 0x104C
  see docs/RULES.md, "The verdict", function
.
edit driver.notes 'end = 0x104A' 'end = 0x1049'
slip 'end odd' 1 'refused 00001044 function' $check <<'.'
driver.efi: tick+0x0: error: function: tick ends at 0x1049, which is odd
driver.notes:40:1: note: the function, function[1].end = 0x1049
  see docs/RULES.md, "The verdict", function
.
edit driver.notes 'place = 0x2000' 'place = 0x2008'
slip 'the thunk cell at another place' 1 'refused 00002008 static' $check <<'.'
driver.efi: 0x2008: error: static: the thunk cell leads to 0x200c, and tick begins at 0x1044; .thunk tick in the data makes one that leads there
driver.notes:24:1: note: the thunk cell, thunk[0].place = 0x2008
  see docs/RULES.md, "The verdict", static
.
edit driver.notes $'enter = true\n' ''
slip 'enter = true forgotten' 1 'refused 00002000 static' $check <<'.'
driver.efi: 0x2000: error: static: the thunk cell enters tick, which has no enter = true
driver.notes:38:1: note: the function that it enters, function[1].name = "tick"
  see docs/RULES.md, "The verdict", static
.
edit driver.notes 'function = "tick"' 'function = "main"'
slip 'the thunk of another function' 1 'refused 00002000 static' $check <<'.'
driver.efi: 0x2000: error: static: the thunk cell enters main, which has no enter = true
driver.notes:28:1: note: the function that it enters, function[0].name = "main"
  see docs/RULES.md, "The verdict", static
.
edit driver.notes 'end = 0x104A' 'end = 0x1046'
slip 'a function cut inside an instruction' 1 'refused 00001044 decode' $check <<'.'
driver.efi: tick+0x0: error: decode: the bytes 77 37 begin an instruction that ends past tick, which ends at 0x1046
driver.notes:40:1: note: the function's end, function[1].end = 0x1046
  see docs/RULES.md, "The verdict", decode
.
edit driver.notes '# Where `main` goes on' $'[[point]]\nplace = 0x1002\nmade = 0\n\n# Where `main` goes on'
slip 'a point inside an instruction' 1 'refused 00001000 point' $check <<'.'
driver.efi: main+0x0: error: point: the point at 0x1002 lies inside this instruction, which goes from 0x1000 up to 0x1006
  0x1000 MOVRELd R7, 4090
driver.notes:48:1: note: the point's place, point[0].place = 0x1002
  see docs/RULES.md, "The verdict", point
.
edit driver.notes 'end = 0x1044' 'end = 0x1042'
slip 'end one instruction too early' 1 'refused 0000103e end' $check <<'.'
driver.efi: main+0x3e: error: end: this falls to 0x1042, out of main, which ends at 0x1042; RET or a jump is wanted there, or a later end
  0x103e MOVqw R0, R0(+1,+0)
driver.notes:30:1: note: the function's end, function[0].end = 0x1042
  see docs/RULES.md, "The verdict", end
.
edit driver.notes 'need = [2, 0]' 'need = [1, 0]'
slip 'need too small' 1 'refused 00001012 stack' $check <<'.'
driver.efi: main+0x12: error: stack: this push makes the items (2, 0), and main has need (1, 0)
  0x1012 PUSHn R5
  regs R4 ptr:Sys, R5 local:p, R7 thunk:0
  stack locals
  written
  made 1
driver.notes:32:1: note: the function's need, function[0].need = [1, 0]
  see docs/RULES.md, "The verdict", stack
.
edit driver.notes 'place = 0x1014' 'place = 0x1012'
slip 'a site off by two' 1 'refused 00001014 site' $check <<'.'
driver.efi: main+0x14: error: site: Locate is called here, at 0x1014, where the notes have no site; main has sites at: 0x1012 0x1032
  0x1014 CALL32EXa @R4
  an edit of the source moves all places behind it; ebc_notes finds them by labels: docs/LABELS.md
driver.notes:68:1: note: the nearest site, site[0].place = 0x1012
  see docs/RULES.md, "The verdict", site
.
edit driver.notes $'place = 0x1014\nsignature = "locate"' $'place = 0x1014\nsignature = "register"'
slip 'a site of another signature' 1 'refused 00001014 site' $check <<'.'
driver.efi: main+0x14: error: site: Locate is called, and the site here has signature register, of Register
  0x1014 CALL32EXa @R4
driver.notes:69:1: note: the site here, site[0].signature = "register"
  see docs/RULES.md, "The verdict", site
.
edit driver.notes 'place = 0x103E' 'place = 0x103C'
slip 'a point off by two' 1 'refused 00001020 target' $check <<'.'
driver.efi: main+0x20: error: target: the jump goes to 0x103e, where the notes have no point; main has points at: 0x103c
  0x1020 JMP8cs 14
  see docs/RULES.md, "The verdict", target
.
edit driver.notes $'[[point]]\nplace = 0x103E\nregs = ["R7 status!p"]\nstack = ["locals"]\nwritten = []\nmade = 1\n' ''
slip 'no point' 1 'refused 00001020 target' $check <<'.'
driver.efi: main+0x20: error: target: the jump goes to 0x103e, where the notes have no point; main has points at: none
  0x1020 JMP8cs 14
  see docs/RULES.md, "The verdict", target
.
edit driver.notes 'params = ["n entry"]' 'params = ["q entry"]'
slip 'an argument of kind q for n' 1 'refused 00001032 arguments' $check <<'.'
driver.efi: main+0x32: error: arguments: argument 0 is n entry, and q entry is wanted
  0x1032 CALL32EXa @R4(+1,+0)
  regs R4 ptr:Sys, R5 thunk:0, R6 int:0..4294967295, R7 status!p
  stack n entry, locals
  written p
  made 1
driver.notes:64:1: note: the parameters of the signature, signature[1].params = ["q entry"]
  see docs/RULES.md, "The verdict", arguments
.
edit driver.notes 'params = ["n entry"]' 'params = ["n handle"]'
slip 'an argument of another type' 1 'refused 00001032 arguments' $check <<'.'
driver.efi: main+0x32: error: arguments: argument 0 is n entry, and n handle is wanted
  0x1032 CALL32EXa @R4(+1,+0)
  regs R4 ptr:Sys, R5 thunk:0, R6 int:0..4294967295, R7 status!p
  stack n entry, locals
  written p
  made 1
driver.notes:64:1: note: the parameters of the signature, signature[1].params = ["n handle"]
  see docs/RULES.md, "The verdict", arguments
.
edit driver.notes 'reg 1 0 method:Register' 'reg 2 0 method:Register'
edit driver.notes $'size = [2, 0]\nfields = ["loc' $'size = [3, 0]\nfields = ["loc'
slip 'a method one slot further' 1 'refused 00001032 address' $check <<'.'
driver.efi: main+0x32: error: address: R4 is ptr:Sys, and Sys has no field that begins at (1, 0)
  Sys has, nearest first: loc method:Locate at (0, 0), reg method:Register at (2, 0)
  0x1032 CALL32EXa @R4(+1,+0)
  regs R4 ptr:Sys, R5 thunk:0, R6 int:0..4294967295, R7 status!p
  stack n entry, locals
  written p
  made 1
driver.notes:9:1: note: the shape's fields, shape[0].fields = ["loc 0 0 method:Locate", "reg 2 0 method:Register"]
  see docs/RULES.md, "The verdict", address
.
edit driver.notes 'regs = ["R7 status!p"]' 'regs = ["R7 status!p", "R5 int"]'
slip 'a point that claims a type too much' 1 'refused 00001020 below' $check <<'.'
driver.efi: main+0x20: error: below: this jumps to the point at 0x103e: R5 is sstatus!p, and the point wants int
  0x1020 JMP8cs 14
  regs R5 sstatus!p, R7 status!p
  stack locals
  written
  made 1
driver.notes:50:1: note: what the point says, point[0].regs = ["R7 status!p", "R5 int"]
  see docs/RULES.md, "The verdict", below
.
edit driver.notes 'written = []' 'written = ["p"]'
slip 'a point that claims a written field' 1 'refused 00001020 below' $check <<'.'
driver.efi: main+0x20: error: below: this jumps to the point at 0x103e: the local field p isn't written, and the point says it is
  0x1020 JMP8cs 14
  regs R5 sstatus!p, R7 status!p
  stack locals
  written
  made 1
driver.notes:52:1: note: what the point says, point[0].written = ["p"]
  see docs/RULES.md, "The verdict", below
.
edit driver.notes 'stack = ["locals"]' 'stack = []'
slip 'a point that forgets the locals' 1 'refused 00001020 below' $check <<'.'
driver.efi: main+0x20: error: below: this jumps to the point at 0x103e: on the stack is locals, and the point wants nothing
  0x1020 JMP8cs 14
  regs R5 sstatus!p, R7 status!p
  stack locals
  written
  made 1
driver.notes:51:1: note: what the point says, point[0].stack = []
  see docs/RULES.md, "The verdict", below
.
edit driver.notes 'made = 1' 'made = 0'
slip 'a point that forgets the thunk' 1 'refused 00001020 below' $check <<'.'
driver.efi: main+0x20: error: below: this jumps to the point at 0x103e: made is 1, and the point wants 0
  0x1020 JMP8cs 14
  regs R5 sstatus!p, R7 status!p
  stack locals
  written
  made 1
driver.notes:53:1: note: what the point says, point[0].made = 0
  see docs/RULES.md, "The verdict", below
.
edit driver.notes $'need = [0, 0]\nparams = ["n int:0..4294967295"]\nresult = "status"' $'need = [0, 0]\nparams = ["n int:0..4294967295"]\nresult = "int:1..5"'
slip 'a result that is not given' 1 'refused 00001048 return' $check <<'.'
driver.efi: tick+0x4: error: return: RET with int:0..0 in R7, and int:1..5 is wanted
  0x1048 RET
  regs R7 int:0..0
  stack
  written
  made 1
driver.notes:44:1: note: the function's result, function[1].result = "int:1..5"
  see docs/RULES.md, "The verdict", return
.
edit driver.notes $'size = [1, 0]\nfields = ["p' $'size = [1, 4]\nfields = ["p'
slip 'locals of another size' 1 'refused 0000100c stack' $check <<'.'
driver.efi: main+0xc: error: stack: R0 goes down by (1, 0), and the locals take (1, 4)
  0x100c MOVqw R0, R0(-1,-0)
  regs R4 ptr:Sys, R7 thunk:0
  stack
  written
  made 1
driver.notes:20:1: note: the size of the locals, shape[2].size = [1, 4]
  see docs/RULES.md, "The verdict", stack
.
in_tick 6 'MOVIqw R7, 0' RET
made
slip 'an instruction after RET' 1 'refused 0000104a state' check out.efi driver.notes <<'.'
out.efi: tick+0x6: error: state: nothing falls to this instruction, which stands after a RET or a jump, and the notes have no point here
  0x104a MOVIqw R7, 0
  see docs/RULES.md, "The verdict", state
.
in_tick 10 'MOVIqq R4, tick'
made
slip 'an address of no static object' 1 'refused 00001044 relocation' check out.efi driver.notes <<'.'
out.efi: tick+0x0: error: relocation: the relocated address at 0x1046 names no static object's start and no thunk cell of the notes
  0x1044 MOVIqq R4, 69700
  see docs/RULES.md, "The verdict", relocation
.
in_tick 2 'LOADSP [FLAGS], R4'
made
slip LOADSP 1 'refused 00001044 form' check out.efi driver.notes <<'.'
out.efi: tick+0x0: error: form: LOADSP sets the flags, which checked code doesn't
  0x1044 LOADSP [FLAGS], R4
  regs
  stack
  written
  made 1
  see docs/RULES.md, "The verdict", form
.
in_tick 2 'JMP32a R4'
made
slip 'a jump through a register' 1 'refused 00001044 form' check out.efi driver.notes <<'.'
out.efi: tick+0x0: error: form: a jump goes by a relative immediate without a register, or by JMP64a with a name
  0x1044 JMP32a R4
  regs
  stack
  written
  made 1
  see docs/RULES.md, "The verdict", form
.
in_tick 2 'PUSHn R4'
made
slip 'a push without need' 1 'refused 00001044 stack' check out.efi driver.notes <<'.'
out.efi: tick+0x0: error: stack: this push makes the items (1, 0), and tick has need (0, 0)
  0x1044 PUSHn R4
  regs
  stack
  written
  made 1
driver.notes:42:1: note: the function's need, function[1].need = [0, 0]
  see docs/RULES.md, "The verdict", stack
.
in_tick 2 'POPn R4'
made
slip 'a pop of nothing' 1 'refused 00001044 stack' check out.efi driver.notes <<'.'
out.efi: tick+0x0: error: stack: a slot n is popped, and nothing is pushed
  0x1044 POPn R4
  regs
  stack
  written
  made 1
  see docs/RULES.md, "The verdict", stack
.
in_tick 4 'PUSHn R4' 'POP64 R4'
edit driver.notes 'need = [0, 0]' 'need = [1, 0]'
made
slip 'a pop of another kind' 1 'refused 00001046 stack' check out.efi driver.notes <<'.'
out.efi: tick+0x2: error: stack: a slot q is popped, and n any is on top
  0x1046 POP64 R4
  regs
  stack n any
  written
  made 1
  see docs/RULES.md, "The verdict", stack
.
in_tick 6 'PUSHn R4' 'MOVqw R0, R0(+0,+8)'
edit driver.notes 'need = [0, 0]' 'need = [1, 0]'
made
slip 'a drop of half an item' 1 'refused 00001046 stack' check out.efi driver.notes <<'.'
out.efi: tick+0x2: error: stack: R0 goes up by (0, 8), which drops no whole items; the items from the top sum up to (0, 0), (1, 0)
  0x1046 MOVqw R0, R0(+0,+8)
  regs
  stack n any
  written
  made 1
  see docs/RULES.md, "The verdict", stack
.
in_tick 2 'ADD64 R4, R0'
made
slip 'R0 used as a number' 1 'refused 00001044 stack' check out.efi driver.notes <<'.'
out.efi: tick+0x0: error: stack: R0 is an operand here; its value is taken by MOVq alone, and it is changed by MOVq R0, R0 with an index alone
  0x1044 ADD64 R4, R0
  regs
  stack
  written
  made 1
  see docs/RULES.md, "The verdict", stack
.
in_tick 2 'MOVdw R5, @R4'
made
slip 'a load through no address' 1 'refused 00001044 address' check out.efi driver.notes <<'.'
out.efi: tick+0x0: error: address: R4 is any, and an address is wanted: a pointer to a shape, or a local's or a thunk cell's
  0x1044 MOVdw R5, @R4
  regs
  stack
  written
  made 1
  see docs/RULES.md, "The verdict", address
.
in_tick 8 'MOVnw R4, @R0(+0,+16)' 'ADD64 R4, R5' 'MOVdw R5, @R4'
edit driver.notes '"n int:0..4294967295"' '"n ptr:Blk"'
made
slip 'a load through a pointer that an addition lost' 1 'refused 0000104a address' check out.efi driver.notes <<'.'
out.efi: tick+0x6: error: address: R4 is any, and an address is wanted: a pointer to a shape, or a local's or a thunk cell's
  0x104a MOVdw R5, @R4
  R4 is any since 0x1048 ADD64 R4, R5, where R4 is ptr:Blk, R5 is any
  regs
  stack
  written
  made 1
  see docs/RULES.md, "The verdict", address
.
in_tick 4 'MOVqw R4, @R0(+0,+16)'
made
slip 'a load by another move' 1 'refused 00001044 address' check out.efi driver.notes <<'.'
out.efi: tick+0x0: error: address: a parameter n int:0..4294967295 is loaded by a MOVq; it is loaded by MOVn, and never stored to
  0x1044 MOVqw R4, @R0(+0,+16)
  regs
  stack
  written
  made 1
  see docs/RULES.md, "The verdict", address
.
in_tick 4 'MOVnw R4, @R0(+1,+16)'
made
slip 'a parameter at another offset' 1 'refused 00001044 address' check out.efi driver.notes <<'.'
out.efi: tick+0x0: error: address: no local field or parameter begins at R0 and (1, 16)
  above R0 lie: parameter 0, n int:0..4294967295, at (0, 16)
  0x1044 MOVnw R4, @R0(+1,+16)
  regs
  stack
  written
  made 1
  see docs/RULES.md, "The verdict", address
.
in_tick 4 'MOVnw R4, @R0(+1,+16)'
edit driver.notes $'params = ["n int:0..4294967295"]\n' ''
made
slip 'a parameter of a function without one' 1 'refused 00001044 address' check out.efi driver.notes <<'.'
out.efi: tick+0x0: error: address: no local field or parameter begins at R0 and (1, 16)
  above R0 lie no items and no parameters
  0x1044 MOVnw R4, @R0(+1,+16)
  regs
  stack
  written
  made 1
  see docs/RULES.md, "The verdict", address
.
edit driver.notes 'fields = ["loc 0 0 method:Locate", "reg 1 0 method:Register"]' 'fields = []'
slip 'a shape without fields' 1 'refused 00001014 address' $check <<'.'
driver.efi: main+0x14: error: address: R4 is ptr:Sys, and Sys has no field that begins at (0, 0)
  Sys has no fields
  0x1014 CALL32EXa @R4
  regs R4 ptr:Sys, R5 local:p, R7 thunk:0
  stack n local:p, locals
  written
  made 1
driver.notes:9:1: note: the shape's fields, shape[0].fields = []
  see docs/RULES.md, "The verdict", address
.
while IFS='~' read -r type words; do
  in_tick 8 'MOVnw R4, @R0(+0,+16)' 'MOVdw R5, @R4(+2,+0)'
  edit driver.notes '"n int:0..4294967295"' "\"n $type\""
  made
  slip "a field past an instance: $type" 1 'refused 00001048 address' check out.efi driver.notes <<.
out.efi: tick+0x4: error: address: R4 is $type, and Blk has no field that begins at (2, 0)
  Blk has, nearest first: next ptr?:Blk at (1, 0), count i32 at (0, 0)
  Blk has size (2, 0), and $words
  0x1048 MOVdw R5, @R4(+2,+0)
  regs R4 $type
  stack
  written
  made 1
driver.notes:15:1: note: the shape's fields, shape[1].fields = ["count 0 0 i32", "next 1 0 ptr?:Blk"]
  see docs/RULES.md, "The verdict", address
.
done <<'.'
ptr:Blk~the pointer leads to one instance
ptr:Blk*4~an operand reaches the first instance alone; a number times the size, added to the pointer, leads to another
.
in_tick 6 'MOVnw R4, @R0(+0,+16)' 'MOVdw R5, @R4'
edit driver.notes '"n int:0..4294967295"' '"n ptr?:Blk"'
made
slip 'a pointer that may be null' 1 'refused 00001048 null' check out.efi driver.notes <<'.'
out.efi: tick+0x4: error: null: R4 is ptr?:Blk, which may be null; a comparison with 0 and a jump where it is are wanted before
  0x1048 MOVdw R5, @R4
  regs R4 ptr?:Blk
  stack
  written
  made 1
  see docs/RULES.md, "The verdict", null
.
in_tick 6 'MOVqw R0, R0(-1,-0)' 'MOVnw R5, @R0'
edit driver.notes $'level = 0\nneed = [0, 0]' $'level = 0\nneed = [1, 0]\nlocals = "L"'
made
slip 'a local that is not written' 1 'refused 00001048 unwritten' check out.efi driver.notes <<'.'
out.efi: tick+0x4: error: unwritten: the local field p isn't written here; a store to it is wanted before, or a test of the status that grants it
  0x1048 MOVnw R5, @R0
  regs
  stack locals
  written
  made 1
  see docs/RULES.md, "The verdict", unwritten
.
in_tick 6 'MOVnw R4, @R0(+0,+16)' 'MOVdw @R4, R5'
edit driver.notes '"n int:0..4294967295"' '"n ptr:Blk"'
made
slip 'a store of anything into i32' 1 'refused 00001048 store' check out.efi driver.notes <<'.'
out.efi: tick+0x4: error: store: the value is any, and the cell i32 takes a number
  0x1048 MOVdw @R4, R5
  regs R4 ptr:Blk
  stack
  written
  made 1
  see docs/RULES.md, "The verdict", store
.
in_tick 8 'MOVInw R4, (+1,+0)' 'CMPI64weq R4, 8'
made
slip 'a size of a pointer compared' 1 'refused 00001048 compare' check out.efi driver.notes <<'.'
out.efi: tick+0x4: error: compare: lin:1,0 is compared with the number 8; a size that differs with the width compares with nothing
  0x1048 CMPI64weq R4, 8
  regs R4 lin:1,0
  stack
  written
  made 1
  see docs/RULES.md, "The verdict", compare
.
in_tick 8 'MOVnw R4, @R0(+0,+16)' 'CMPI64wlte R4, -1'
edit driver.notes '"n int:0..4294967295"' '"n status"'
made
slip 'a status compared by order' 1 'refused 00001048 compare' check out.efi driver.notes <<'.'
out.efi: tick+0x4: error: compare: status is compared with the number -1; a status compares by eq, with a status or a number below 2147483648; MOVsn makes one that compares by order
  0x1048 CMPI64wlte R4, -1
  regs R4 status
  stack
  written
  made 1
  see docs/RULES.md, "The verdict", compare
.
in_tick 2 'DIV64 R4, R5'
made
slip 'a divisor that may be no number' 1 'refused 00001044 divide' check out.efi driver.notes <<'.'
out.efi: tick+0x0: error: divide: the divisor is any, and a number is wanted
  0x1044 DIV64 R4, R5
  regs
  stack
  written
  made 1
  see docs/RULES.md, "The verdict", divide
.
in_tick 2 'JMP8 tick'
made
slip 'a jump to a place without a point' 1 'refused 00001044 target' check out.efi driver.notes <<'.'
out.efi: tick+0x0: error: target: the jump goes to 0x1044, where the notes have no point; tick has points at: none
  0x1044 JMP8 -1
  see docs/RULES.md, "The verdict", target
.
in_tick 2 'JMP8 failed'
made
slip 'a jump out of the function' 1 'refused 00001044 target' check out.efi driver.notes <<'.'
out.efi: tick+0x0: error: target: the jump goes to 0x103e, outside tick, which is 0x1044 up to 0x104c
  0x1044 JMP8 -4
  see docs/RULES.md, "The verdict", target
.
in_tick 2 'JMP8 end'
edit driver.asm $'  RET\n.data' $'  RET\nend:\n.data'
made
slip "a jump to the function's end" 1 'refused 00001044 target' check out.efi driver.notes <<'.'
out.efi: tick+0x0: error: target: the jump goes to 0x104c, where tick ends; an instruction is wanted there, as RET
  0x1044 JMP8 3
  see docs/RULES.md, "The verdict", target
.
while IFS='~' read -r line words; do
  in_tick 6 "$line"
  made
  slip "a target before the image: $line" 1 'refused 00001044 target' check out.efi driver.notes <<.
out.efi: tick+0x0: error: target: the $words
  0x1044 $line
  see docs/RULES.md, "The verdict", target
.
done <<'.'
CALL32 -10000~call goes to -0x16c6, where no function of the notes begins
JMP32 -10000~jump goes to -0x16c6, outside tick, which is 0x1044 up to 0x1050
.
in_tick 6 'CALL32 main'
made
slip 'a call of the entry function' 1 'refused 00001044 target' check out.efi driver.notes <<'.'
out.efi: tick+0x0: error: target: the call goes to 0x1000, the entry function, which isn't called
  0x1044 CALL32 -74
  see docs/RULES.md, "The verdict", target
.
in_tick 6 'CALL32 tick'
made
slip 'a call of a function of its own level' 1 'refused 00001044 level' check out.efi driver.notes <<'.'
out.efi: tick+0x0: error: level: tick has level 0 and calls tick of level 0, and a lower one is wanted
  0x1044 CALL32 -6
  regs
  stack
  written
  made 1
driver.notes:41:1: note: the level of the function that is called, function[1].level = 0
  see docs/RULES.md, "The verdict", level
.
in_tick 2 'BREAK 5'
made
slip 'BREAK 5 once more' 1 'refused 00001044 thunk' check out.efi driver.notes <<'.'
out.efi: tick+0x0: error: thunk: BREAK 5 makes a thunk, and all 1 of the notes are made
  0x1044 BREAK 5
  regs
  stack
  written
  made 1
  see docs/RULES.md, "The verdict", thunk
.
in_tick 4 'MOVIqw R1, 0'
made
slip 'R1 not restored' 1 'refused 0000104c return' check out.efi driver.notes <<'.'
out.efi: tick+0x8: error: return: RET with int:0..0 in R1, and saved:1, what R1 held at the entry, is wanted
  0x104c RET
  regs R1 int:0..0, R7 int:0..0
  stack
  written
  made 1
  see docs/RULES.md, "The verdict", return
.

# ---- scripts and runs

edit driver.script '"0 loc method' '"0 lok method'
slip 'a cell of a field that is not there' 3 'bad driver.script name object[0].cells' $twin <<'.'
driver.script:9:10: error: item 0 of object[0].cells is "0 lok method Locate", and the shape Sys has no field lok
  Sys has: loc, reg
  see docs/SCRIPTS.md, "The file" and "Texts"
.
edit driver.script $'args = ["entry tick"]\n' $'args = ["entry tick"]\nwrite = ["1 0 count int 5", "0 0 count int 5"]\n'
slip 'a write to another object' 3 'bad driver.script name call[1].write' $twin <<'.'
driver.script:28:29: error: item 1 of call[1].write is "0 0 count int 5", and object 0 is a Sys, which has no field count
  Sys has: loc, reg
  objects: 0 of Sys, 1 of Blk
  see docs/SCRIPTS.md, "The file" and "Texts"
.
edit driver.script 'out = ["0 ptr 1 0"]' 'write = ["1 0 cont int 5", "1 0 next method Locat"]'
slip 'two writes with names that are not there' 3 'bad driver.script name call[0].write' $twin <<'.'
driver.script:21:10: error: item 0 of call[0].write is "1 0 cont int 5", and object 1 is a Blk, which has no field cont
  Blk has: count, next
  objects: 0 of Sys, 1 of Blk
  see docs/SCRIPTS.md, "The file" and "Texts"
.
edit driver.script 'out = ["0 ptr 1 0"]' 'write = ["1 5 count int 5"]'
slip 'a write to an instance that is not there' 3 'bad driver.script range call[0].write' $twin <<'.'
driver.script:21:10: error: item 0 of call[0].write is "1 5 count int 5", and object 1 is a Blk, and there is no instance 5, counted from 0
  see docs/SCRIPTS.md, "What the reader refuses"
.
edit driver.script $'cells = ["0 loc method Locate", "0 reg method Register"]\n' ''
slip 'the cells of methods left out' 3 'bad driver.script range object[0].cells' $twin <<'.'
driver.script:6:1: error: object[0] has no key cells; wanted: texts INSTANCE FIELD VALUE
  see docs/SCRIPTS.md, "The file" and "Texts"
.
edit driver.script $'args = ["handle 0", "ptr 0 0"]\n' ''
slip 'the arguments of the entry function left out' 3 'bad driver.script range args' $twin <<'.'
driver.script:1:1: error: the text has no key args; wanted: texts VALUE, one for each parameter of the entry function
  see docs/SCRIPTS.md, "The file" and "Texts"
.
edit driver.script 'result = "status ok 0"' 'result = 0'
slip 'status as a number' 3 'bad driver.script kind call[0].result' $twin <<'.'
driver.script:22:1: error: call[0].result is a number; wanted: a text VALUE
  see docs/SCRIPTS.md, "The file" and "Texts"
.
edit driver.script 'result = "status ok 0"' 'result = "EFI_SUCCESS"'
slip EFI_SUCCESS 3 'bad driver.script range call[0].result' $twin <<'.'
driver.script:22:10: error: call[0].result is "EFI_SUCCESS"; wanted: a text VALUE
  VALUE is int N, size N,C, ptr OBJECT INSTANCE, null, status ok N, status error N, handle K, entry F, method M or any
  see docs/SCRIPTS.md, "The file" and "Texts"
.
edit driver.script 'method Locate' 'method Locat'
slip 'a method that is not there' 3 'bad driver.script name object[0].cells' $twin <<'.'
driver.script:9:10: error: item 0 of object[0].cells is "0 loc method Locat", which names the method Locat that the notes don't have
  they have: Locate, Register
  see docs/SCRIPTS.md, "The file" and "Texts"
.
edit driver.script $'"ptr 0 0"]\n\n' $'"ptr 1 0"]\n\n'
slip 'a pointer to another shape' 3 'bad driver.script range args' $twin <<'.'
driver.script:3:21: error: item 1 of args is "ptr 1 0", and object 1 is a Blk; parameter 1 of main is n ptr:Sys
  see docs/SCRIPTS.md, "What the reader refuses"
.
edit driver.script 'args = ["entry tick"]' 'args = []'
slip 'one argument too few' 3 'bad driver.script range call[1].args' $twin <<'.'
driver.script:27:8: error: call[1].args has 0 values, and signature register has 1 parameter: n entry
  see docs/SCRIPTS.md, "What the reader refuses"
.
edit driver.script 'version = 1' $'version = 1\nnotify = []'
slip 'notify in version 1' 3 'bad driver.script kind notify' $twin <<'.'
driver.script:3:1: error: notify is no key with version 1; wanted: version 2
  see docs/SCRIPTS.md, "The file" and "Texts"
.
edit driver.script $'[[call]]\nsignature = "register"\nargs = ["entry tick"]\nenter = ["tick int 1", "tick int 2"]\nresult = "status ok 0"\n' ''
slip 'a call missing' 0 'end 20 00001038 script end .. same' $twin <<'.'
driver.script:18:1: note: at both widths the driver makes one call more than the 1 of the script; wanted: one more table [[call]], with signature = "register" and args = ["entry tick"]
  see docs/SCRIPTS.md, "A run that goes wrong"
.
edit driver.script $'out = ["0 ptr 1 0"]\n' ''
slip 'out forgotten' 0 'end 9 00001016 mismatch reply .. same' $twin <<'.'
driver.script:18:1: note: at both widths the reply of call[0] doesn't fit: it has no out for argument 0, n out:ptr:Blk, and its result status ok 0 is no error
  see docs/SCRIPTS.md, "A run that goes wrong"
.
edit driver.script 'out = ["0 ptr 1 0"]' 'out = ["0 ptr 0 0"]'
slip 'an object of another shape' 0 'end 9 00001016 mismatch reply .. same' $twin <<'.'
driver.script:21:8: note: at both widths the reply of call[0] doesn't fit: item 0 of out is "0 ptr 0 0", and object 0 is a Sys; argument 0 is n out:ptr:Blk
  see docs/SCRIPTS.md, "A run that goes wrong"
.
edit driver.script 'out = ["0 ptr 1 0"]' 'out = ["0 ptr 7 0"]'
slip 'an object past the last' 0 'end 9 00001016 mismatch reply .. same' $twin <<'.'
driver.script:21:8: note: at both widths the reply of call[0] doesn't fit: item 0 of out is "0 ptr 7 0", and there is no object 7; there are 2, from 0 on
  see docs/SCRIPTS.md, "A run that goes wrong"
.
edit driver.script 'args = ["entry tick"]' 'args = ["null"]'
slip 'another argument' 0 'end 20 00001038 mismatch argument 0 .. same' $twin <<'.'
driver.script:27:1: note: at both widths argument 0 of the driver's call is entry tick, and call[1] has null
  see docs/SCRIPTS.md, "A run that goes wrong"
.
edit driver.script $'signature = "register"\nargs = ["entry tick"]' $'signature = "locate"\nargs = ["out"]'
slip 'another signature' 0 'end 20 00001038 mismatch signature .. same' $twin <<'.'
driver.script:26:1: note: at both widths the driver calls by register, and call[1] is one by locate
  see docs/SCRIPTS.md, "A run that goes wrong"
.
edit driver.script '"tick int 1"' '"tick null"'
slip 'a callback that takes no such value' 0 'end 21 00001038 mismatch enter .. same' $twin <<'.'
driver.script:28:10: note: at both widths callback 0 of call[1], "tick null", can't be entered: parameter 0 of tick is n int:0..4294967295
  see docs/SCRIPTS.md, "A run that goes wrong"
.
slip 'too few steps' 0 'end 10 0000101a running .. end 10 0000101a running' run 32 driver.efi driver.notes driver.script 10 <<'.'
ebc: note: at width 32 the run goes on after 10 steps; wanted: more STEPS, 10000000 at most
  see docs/SCRIPTS.md, "A run that goes wrong"
.

# ---- binds

edit pair.binds 'method =' 'methd ='
slip 'a misspelt key' 3 'bad pair.binds missing bind[0].method' pair $consumer $provider pair.binds 1000 <<'.'
pair.binds:4:1: error: bind[0] has no key method; wanted: the name of a method of the first image's notes, a text
  keys that don't belong there: methd
  see docs/PAIRS.md, "A text of binds"
.
edit pair.binds 'function = "double"' 'function = "trouble"'
slip 'a function that is not there' 3 'bad pair.binds name bind[0].function' pair $consumer $provider pair.binds 1000 <<'.'
pair.binds:6:12: error: bind[0].function is "trouble", which names a function that provider.notes doesn't have
  it has: main, double
  see docs/PAIRS.md, "A text of binds"
.
slip 'the two images swapped' 3 'bad pair.binds name bind[0].method' pair $provider $consumer pair.binds 1000 <<'.'
pair.binds:5:10: error: bind[0].method is "Double", which names a method that provider.notes doesn't have
  it has none; consumer.notes has: Double
  see docs/PAIRS.md, "A text of binds"
.
