# Rows of what `ebc` says of runs that end otherwise than finished, or differ, for slips.sh, which reads this file: shellcheck shell=bash

# A row of a run of the driver at both widths: its name, its ending, and what is said, with where it stands.
ending() {
  slip "$1" 0 "$2 .. same" $twin < <(printf '%s\n' "$3" '  see docs/SCRIPTS.md, "A run that goes wrong"')
}
# The same of the image out.efi, which is made of the source, at a width.
of_made() {
  made
  slip "$1" 0 "$3 .. $3" run "$2" out.efi driver.notes driver.script 1000 < <(printf '%s\n' "$4" '  see docs/SCRIPTS.md, "A run that goes wrong"')
}

# ---- the call

edit driver.notes 'place = 0x1014' 'place = 0x1012'
ending 'mismatch site' 'end 8 00001016 mismatch site' 'ebc: note: at both widths the call at main+0x14 has no site in the notes'
# The address of Locate is 16 bytes past that of the native area, which is the first at 0x100000 or at 0x200000000.
edit driver.notes $'place = 0x1014\nsignature = "locate"' $'place = 0x1014\nsignature = "register"'
of_made 'mismatch target at 32' 32 'end 8 00001016 mismatch target' \
  "ebc: note: at width 32 a call goes to the address 0x100010, which isn't the method of its site"
edit driver.notes $'place = 0x1014\nsignature = "locate"' $'place = 0x1014\nsignature = "register"'
of_made 'mismatch target at 64' 64 'end 8 00001016 mismatch target' \
  "ebc: note: at width 64 a call goes to the address 0x200000010, which isn't the method of its site"
slip 'too few steps at both widths' 0 'end 10 0000101a running .. same' twin driver.efi driver.notes driver.script 10 <<'.'
ebc: note: at both widths the run goes on after 10 steps; wanted: more STEPS, 10000000 at most
  see docs/SCRIPTS.md, "A run that goes wrong"
.
# `tick` divides by R4, which is 0.
in_tick 6 'MOVIqw R4, 0' 'DIV64 R5, R4'
of_made 'a division by 0' 64 'end 23 00001048 raised divide_error' 'ebc: note: at width 64 the run raised divide_error at tick+0x4'

# ---- the reply

edit driver.script 'result = "status ok 0"' 'result = "handle 1"'
ending 'a result of another type' 'end 9 00001016 mismatch reply' \
  "driver.script:22:10: note: at both widths the reply of call[0] doesn't fit: its result is \"handle 1\"; locate gives status"
edit driver.script 'result = "status ok 0"' 'result = "status error 14"'
ending 'an error that leaves something in a cell' 'end 9 00001016 mismatch reply' \
  "driver.script:18:1: note: at both widths the reply of call[0] doesn't fit: it has 1 out for argument 0, n out:ptr:Blk, with the result status error 14; wanted: 0"
edit driver.script '"0 ptr 1 0"' '"1 ptr 1 0"'
ending 'an argument that is not there' 'end 9 00001016 mismatch reply' \
  "driver.script:21:8: note: at both widths the reply of call[0] doesn't fit: item 0 of out is \"1 ptr 1 0\", and there is no argument 1"
edit driver.script 'out = ["0 ptr 1 0"]' $'out = ["0 ptr 1 0"]\nwrite = ["1 0 next int 5"]'
ending 'a write of another type' 'end 9 00001016 mismatch reply' \
  "driver.script:22:10: note: at both widths the reply of call[0] doesn't fit: item 0 of write is \"1 0 next int 5\"; field next of Blk is ptr?:Blk"
edit driver.script 'out = ["0 ptr 1 0"]' $'out = ["0 ptr 1 0"]\nwrite = ["2 0 count int 5"]'
printf '[[call.make]]\nshape = "Blk"\ncount = 1\n' >>driver.script
ending 'a write into an object that a later call makes' 'end 9 00001016 mismatch reply' \
  "driver.script:22:10: note: at both widths the reply of call[0] doesn't fit: item 0 of write is \"2 0 count int 5\", and there is no object 2; there are 2, from 0 on"

# ---- functions that the firmware enters

edit driver.script '"tick int 1"' '"main handle 0, ptr 0 0"'
ending 'the entry function as a callback' 'end 21 00001038 mismatch enter' \
  "driver.script:28:10: note: at both widths callback 0 of call[1], \"main handle 0, ptr 0 0\", can't be entered: main is the entry function"
edit driver.script '"tick int 2"' '"tick"'
ending 'a callback without its value' 'end 25 00001038 mismatch enter' \
  "driver.script:28:24: note: at both widths callback 1 of call[1], \"tick\", can't be entered: it has 0 values, and tick has 1 parameter: n int:0..4294967295"
edit driver.script '"tick int 1", "tick int 2"' '"leaf"'
leaf 6 '[0, 16]' '' '[0, 0]' '[]' 'CALL32 leaf'
of_made 'a callback that is not marked' 32 'end 21 00001038 mismatch enter' \
  "driver.script:28:10: note: at width 32 callback 0 of call[1], \"leaf\", can't be entered: leaf isn't marked enter = true"
# `tick` calls Register, by a signature without parameters, and each such call enters `tick`: nine functions are there by the eighth.
in_tick 10 'MOVnw R4, @R0(+0,+16)' 'CALL32EXa @R4(+1,+0)'
edit driver.notes '"n int:0..4294967295"' '"n ptr:Sys"'
printf '[[signature]]\nname = "again"\nmethod = "Register"\nresult = "status"\n[[site]]\nplace = 0x1048\nsignature = "again"\n' >>driver.notes
edit driver.script '"tick int 1", "tick int 2"' '"tick ptr 0 0"'
for _ in 1 2 3 4 5 6 7 8; do printf '[[call]]\nsignature = "again"\nenter = ["tick ptr 0 0"]\nresult = "status ok 0"\n' >>driver.script; done
of_made 'a tenth function' 64 'end 53 0000104e mismatch depth' \
  "ebc: note: at width 64 a tenth function would be entered while nine haven't returned"
# `tick` calls Register so, and that call, call[2], makes object 2 before call[1] has its reply.
makes_within() {
  in_tick 10 'MOVnw R4, @R0(+0,+16)' 'CALL32EXa @R4(+1,+0)'
  edit driver.notes '"n int:0..4294967295"' '"n ptr:Sys"'
  printf '[[signature]]\nname = "again"\nmethod = "Register"\nresult = "status"\n[[site]]\nplace = 0x1048\nsignature = "again"\n' >>driver.notes
  edit driver.script '"tick int 1", "tick int 2"]' "$1"
  printf '[[call]]\nsignature = "again"\nresult = "status ok 0"\n[[call.make]]\nshape = "Blk"\ncount = 1\n' >>driver.script
}
makes_within '"tick ptr 0 0", "tick ptr 2 0"]'
of_made 'a callback with an object that a call within made' 64 'end 29 00001038 mismatch enter' \
  'driver.script:28:26: note: at width 64 callback 1 of call[1], "tick ptr 2 0", can'\''t be entered: parameter 0 of tick is n ptr:Sys, and object 2 is a Blk'
makes_within $'"tick ptr 0 0"]\nwrite = ["2 0 next int 5"]'
of_made 'a write into an object that a call within made' 32 'end 29 00001038 mismatch reply' \
  'driver.script:29:10: note: at width 32 the reply of call[1] doesn'\''t fit: item 0 of write is "2 0 next int 5"; field next of Blk is ptr?:Blk'
# The cell is at 0x2000 in the image, which comes after 16,464 bytes of the native area and nine times 32 of the stack, each with 16 more.
edit driver.notes $'enter = true\n' ''
of_made 'mismatch thunk' 32 'end 2 00001008 mismatch thunk' \
  'ebc: note: at width 32 BREAK 5 at a cell at the address 0x106190 leads to no function with enter = true'
notified() {
  edit driver.script 'version = 1' 'version = 2'
  printf '[[notify]]\nat = %s\nfunction = "%s"\nargs = %s\n' "$@" >>driver.script
}
notified 1 tick '["int 7"]'
ending 'a notification before the thunk' 'end 2 00001006 mismatch notify' \
  "driver.script:30:1: note: at both widths notify[0] can't be entered: not all thunk cells are made by then"
notified 2 tick '["null"]'
ending 'a notification of another type' 'end 3 00001008 mismatch notify' \
  "driver.script:30:1: note: at both widths notify[0] can't be entered: parameter 0 of tick is n int:0..4294967295"
notified 2 main '["handle 0", "ptr 0 0"]'
ending 'the entry function as a notification' 'end 3 00001008 mismatch notify' \
  "driver.script:30:1: note: at both widths notify[0] can't be entered: main is the entry function"

# ---- two images

pair="pair $consumer $provider pair.binds"
# Puts a text in place of another in the source of a driver of the pair, and makes its image.
of_pair() {
  edit "$1.asm" "$2" "$3"
  printf 'objects = ["%s.obj"]\nentry = "main"\nsubsystem = 11\nbase = 65536\n' "$1" >"$1.plan"
  before asm "$1.asm" "$1.obj"
  before link "$1.plan" "$1.efi"
}
slip 'too few steps of a pair' 0 'end 5 00001006 running .. same' $pair 5 <<'.'
ebc: note: at both widths the run goes on after 5 steps; wanted: more STEPS, 100000 at most
  see docs/PAIRS.md, "A run that goes wrong"
.
edit consumer.script 'version = 1' 'version = 2'
printf '[[notify]]\nat = 1\nfunction = "main"\nargs = ["ptr 0 0"]\n' >>consumer.script
slip 'a notification in a pair' 3 'bad consumer.script range notify' $pair 1000 <<'.'
consumer.script:10:1: error: notify[0] is a notification, and the scripts of a pair have none; wanted: no table [[notify]]
  see docs/PAIRS.md, "A run that goes wrong"
.
echo 'version = 1' >pair.binds
slip 'a method that is not bound' 0 'end 8 0000100c script end .. same' $pair 1000 <<'.'
consumer.script: note: at both widths the driver makes one call more than the 0 of the script; wanted: one more table [[call]], with signature = "double" and args = ["int 21"]
  see docs/PAIRS.md, "A run that goes wrong"
.
edit consumer.notes $'params = ["n int:0..1000"]\nresult = "int:0..2000"' $'params = ["n int:0..1000"]\nresult = "int:0..40"'
slip 'a bind that does not agree' 3 'bad pair.binds range bind[0]' $pair 1000 <<'.'
pair.binds:4:1: error: bind[0] doesn't agree: signature double has 1 parameter: n int:0..1000, result int:0..40; function double has 1 parameter: n int:0..1000, result int:0..2000
  see docs/PAIRS.md, "Binds"
.
edit pair.binds 'function = "double"' 'function = "main"'
slip 'a bind to the entry function' 3 'bad pair.binds range bind[0]' $pair 1000 <<'.'
pair.binds:4:1: error: bind[0] doesn't agree: main is the entry function, which no bind enters
  see docs/PAIRS.md, "Binds"
.
edit provider.notes $'enter = true\n' ''
slip 'a bind to a function that is not marked' 3 'bad pair.binds range bind[0]' $pair 1000 <<'.'
pair.binds:4:1: error: bind[0] doesn't agree: double isn't marked enter = true
  see docs/PAIRS.md, "Binds"
.
# Seventeen bytes at 4 an address, and 21 at 8.
of_pair consumer 'MOVIqw R4, 21' 'MOVInw R4, (+1,+13)'
slip 'a pair that differs' 8 'end 17 gate finished int 34 .. differ 8' $pair 1000 <<'.'
ebc: error: the two runs differ after step 8, and not before
  see docs/HOST.md, "A run that parts"
.

# ---- two widths

# docs/HOST.md, "A run that parts".
printf '.global main\nmain:\n  MOVInw R4, (+1,+0)\n  CMPI64weq R4, 8\n  JMP8cc -2\n  RET\n' >driver.asm
printf 'version = 1\nentry = "main"\n[[function]]\nname = "main"\nplace = 0x1000\nend = 0x100c\nlevel = 0\nneed = [0, 0]\nresult = "any"\n' >parts.notes
echo 'version = 1' >parts.script
made
slip 'runs that part' 8 'end 7 gate finished any .. differ 3' twin out.efi parts.notes parts.script 100 <<'.'
out.efi: main+0x8: error: the two runs differ after step 3, and not before
  0x1008 JMP8cc -2
  at width 32 then end 3 00001006 running
  at width 64 then end 3 0000100a running
  see docs/HOST.md, "A run that parts"
.
