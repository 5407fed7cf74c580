#!/usr/bin/env bash
# Rows of what `ebc` says on standard error: slips of someone who begins, each one edit or a few of a copy of the examples, and the words.
# What a row wants is taken from docs/COMMANDS.md and the pages that its lines name.
#
# Prints the name of each row that differs, and below it the lines that differ: `<` is wanted. Ends with status 1 if there was one. EBC
# names the program, by default the script of bin/.
set -u
here=$(CDPATH='' cd -- "$(dirname -- "${BASH_SOURCE[0]}")" >/dev/null && pwd -P)
EBC=$(realpath -e -- "${EBC:-$here/../bin/ebc}") || exit 1
room=$(mktemp -d) || exit 1
trap 'rm -rf "$room"' EXIT
failed=0
fail() { printf 'slips: %s\n' "$*"; failed=1; }

# ---- the folder of a row, made anew for each

mkdir "$room/base" || exit 1
for folder in driver pair; do cp "$here/../examples/$folder"/* "$room/base"; done
rm -f "$room/base"/*.labels "$room/base/Makefile"
# The notes of the driver as they are written by hand, with numbers.
cat >"$room/base/driver.notes" <<'.'
# Notes of a driver that asks the firmware for a block, hands it a function to enter, and gives back the status.
version = 1
entry = "main"

# What the firmware hands in: a table of two native methods.
[[shape]]
name = "Sys"
size = [2, 0]
fields = ["loc 0 0 method:Locate", "reg 1 0 method:Register"]

# A block: a count and the next block, or null.
[[shape]]
name = "Blk"
size = [2, 0]
fields = ["count 0 0 i32", "next 1 0 ptr?:Blk"]

# The locals of `main`: the block that was found.
[[shape]]
name = "L"
size = [1, 0]
fields = ["p 0 0 ptr:Blk"]

[[thunk]]
place = 0x2000
function = "tick"

[[function]]
name = "main"
place = 0x1000
end = 0x1044
level = 1
need = [2, 0]
locals = "L"
params = ["n handle", "n ptr:Sys"]
result = "status"

[[function]]
name = "tick"
place = 0x1044
end = 0x104A
level = 0
need = [0, 0]
params = ["n int:0..4294967295"]
result = "status"
enter = true

# Where `main` goes on if no block was found.
[[point]]
place = 0x103E
regs = ["R7 status!p"]
stack = ["locals"]
written = []
made = 1

[[signature]]
name = "locate"
method = "Locate"
params = ["n out:ptr:Blk"]
result = "status"

[[signature]]
name = "register"
method = "Register"
params = ["n entry"]
result = "status"

[[site]]
place = 0x1014
signature = "locate"

[[site]]
place = 0x1032
signature = "register"
.
fresh() {
  cd "$room" && rm -rf row && cp -r base row && cd row || exit 1
  edits=
}
fresh

# Puts a text in place of the first that is as given.
edit() {
  local text
  text=$(cat "$1" && echo .) && text=${text%.}
  [[ $text == *"$2"* ]] || fail "$1 has no '$2'"
  printf %s "${text/"$2"/"$3"}" >"$1"
}
# Ends each line with CR LF.
crlf() { sed -i 's/$/\r/' "$1"; }
# The first bytes of a file, of a given number.
cut_to() { head -c "$3" "$2" >"$1.cut" && mv "$1.cut" "$1"; }
# A copy of a file with bytes put over those at an offset.
patch() { cp "$2" "$1" && printf "$4" | dd of="$1" bs=1 seek="$3" conv=notrunc status=none; }
# Runs the program for what it writes.
before() { "$EBC" "$@" >answer 2>&1 || fail "$*: $(cat answer)"; }
# Lines put in front of the first of `tick`, which take so many bytes more; then the image that is made of them.
in_tick() {
  edit driver.asm $'tick:\n' $'tick:\n'"$(printf '  %s\n' "${@:2}")"$'\n'
  edit driver.notes 'end = 0x104A' "end = 0x$(printf %X $((0x104A + $1)))"
}
made() { before $asm && before $link; }

# ---- rows

check='check driver.efi driver.notes'
asm='asm driver.asm driver.obj'
link='link driver.plan out.efi'
twin='twin driver.efi driver.notes driver.script 1000'
consumer='consumer.efi consumer.notes consumer.script'
provider='provider.efi provider.notes provider.script'

# The row of this name: the words, which have to end with this status, print this line first and say what stands on standard input. `usage`
# is the usage; of a run, it is the first of its ends and the last line. What is printed goes to the file `output`, if it is set.
slip() {
  local status
  cat >"$room/wanted"
  : >"$room/printed"
  "$EBC" "${@:4}" >"${output:-$room/printed}" 2>"$room/said"
  status=$?
  [ "$status" = "$2" ] || fail "$1: status $status"
  [ "$(shown)" = "$3" ] || fail "$1: $(shown)"
  cmp -s "$room/wanted" "$room/said" || fail "$1"$'\n'"$(diff "$room/wanted" "$room/said")"
  fresh
}
shown() {
  awk 'NR == 1 { first = $0 } /^end / && end == "" { end = $0 } { last = $0 }
    END { if (first ~ /^usage: /) print "usage"; else if (end != "") print end " .. " last; else print first }' "$room/printed"
}

# ---- words

slip 'no words' 2 usage  <<'.'
ebc: error: no words; a command is wanted: asm, link, check, list, run, twin, sample, rom, infer or pair
  see docs/COMMANDS.md, "Commands"
.
long=$(printf 'x%.0s' {1..200})
cut=${long:0:100}..
slip 'a command of 200 letters' 2 usage "$long" <<.
ebc: error: \`$cut\` is no command; wanted: asm, link, check, list, run, twin, sample, rom, infer or pair
  see docs/COMMANDS.md, "Commands"
.
slip 'WIDTH of 200 letters' 2 usage run "$long" driver.efi driver.notes driver.script 1000 <<.
ebc: error: WIDTH is \`$cut\`; wanted: 32 or 64
  usage: run WIDTH IMAGE NOTES SCRIPT STEPS
  see docs/COMMANDS.md, "Commands"
.
slip 'asks for help' 2 usage --help <<'.'
ebc: error: `--help` is no command; wanted: asm, link, check, list, run, twin, sample, rom, infer or pair
  see docs/COMMANDS.md, "Commands"
.
slip 'a command that is none' 2 usage chek driver.efi driver.notes <<'.'
ebc: error: `chek` is no command; wanted: asm, link, check, list, run, twin, sample, rom, infer or pair
  see docs/COMMANDS.md, "Commands"
.
for name in notes places lint trace; do
  slip "the program ebc_$name as a command" 2 usage $name driver.plan <<.
ebc: error: \`$name\` is no command; wanted: the program ebc_$name, which stands beside ebc
  see docs/COMMANDS.md, "Commands"
.
done
slip 'twin without STEPS' 2 usage twin driver.efi driver.notes driver.script <<'.'
ebc: error: 3 words after `twin`; wanted: 4
  usage: twin IMAGE NOTES SCRIPT STEPS
  see docs/COMMANDS.md, "Commands"
.
slip 'twin of the image alone' 2 usage twin driver.efi <<'.'
ebc: error: 1 word after `twin`; wanted: 4
  usage: twin IMAGE NOTES SCRIPT STEPS
  see docs/COMMANDS.md, "Commands"
.
slip 'STEPS as 1_000' 2 usage twin driver.efi driver.notes driver.script 1_000 <<'.'
ebc: error: STEPS is `1_000`; wanted: decimal digits, with no 0 in front of others
  usage: twin IMAGE NOTES SCRIPT STEPS
  see docs/COMMANDS.md, "Commands"
.
slip 'STEPS with a 0 in front' 2 usage twin driver.efi driver.notes driver.script 01 <<'.'
ebc: error: STEPS is `01`; wanted: decimal digits, with no 0 in front of others
  usage: twin IMAGE NOTES SCRIPT STEPS
  see docs/COMMANDS.md, "Commands"
.
slip 'WIDTH 16' 2 usage run 16 driver.efi driver.notes driver.script 1000 <<'.'
ebc: error: WIDTH is `16`; wanted: 32 or 64
  usage: run WIDTH IMAGE NOTES SCRIPT STEPS
  see docs/COMMANDS.md, "Commands"
.
slip 'rom of no kind' 2 usage rom show driver.rom <<'.'
ebc: error: `rom show` is no command; wanted: rom wrap, rom list or rom take
  see docs/COMMANDS.md, "Commands"
.
slip 'image and notes swapped' 3 'bad driver.notes mz 0' check driver.notes driver.efi <<'.'
driver.notes:0x0: error: the first bytes are 23 20; wanted: 4d 5a, MZ, with which an image begins; it is a text
  see docs/IMAGES.md, "Faults, and what to do about them"
.
slip 'the image in place of the notes' 3 'bad driver.efi nottoml -' check driver.efi driver.efi <<'.'
driver.efi:1:69: error: this is no TOML: invalid UTF-8; the file begins as an image
  see docs/NOTES.md, "The file" and "Texts"
.
slip 'a ROM in place of the script' 3 'bad driver.rom nottoml -' twin driver.efi driver.notes driver.rom 1000 <<'.'
driver.rom:1:2: error: this is no TOML: invalid UTF-8; the file begins as an option ROM
  see docs/SCRIPTS.md, "The file" and "Texts"
.
slip 'the object in place of the plan' 3 'bad driver.obj nottoml -' link driver.obj out.efi <<'.'
driver.obj:1:25: error: this is no TOML: invalid UTF-8; the file begins as an object
  see docs/LINKING.md, "Plans"
.
slip 'rom wrap with 0x8086' 2 usage rom wrap 0x8086 0x1234 driver.efi x.rom <<'.'
ebc: error: VENDOR is `0x8086`; wanted: four hexadecimal digits, the letters in lower case
  usage: rom wrap VENDOR DEVICE IMAGE ROM
  see docs/COMMANDS.md, "Commands"
.
slip 'rom wrap with 10EC in upper case' 2 usage rom wrap 10EC 8139 driver.efi x.rom <<'.'
ebc: error: VENDOR is `10EC`; wanted: four hexadecimal digits, the letters in lower case
  usage: rom wrap VENDOR DEVICE IMAGE ROM
  see docs/COMMANDS.md, "Commands"
.
slip 'a misspelt file' 9 'missing drvier.efi' check drvier.efi driver.notes <<'.'
drvier.efi: error: IMAGE can't be read: No such file or directory (os error 2)
  see docs/COMMANDS.md, "The answer"
.
slip 'the second file misspelt' 9 'missing drvier.notes' check driver.efi drvier.notes <<'.'
drvier.notes: error: NOTES can't be read: No such file or directory (os error 2)
  see docs/COMMANDS.md, "The answer"
.
slip 'a folder in place of a file' 4 '' check . driver.notes <<'.'
.: error: IMAGE can't be read: Is a directory (os error 21)
  see docs/COMMANDS.md, "The answer"
.
slip 'check of an image, notes forgotten' 1 'refused 00000000 form' check driver.efi <<'.'
driver.efi:0x0: error: form: the file begins as an image, and `check` with one file takes raw code; wanted: check IMAGE NOTES
  see docs/PLAIN.md, "The check"
.
while IFS='~' read -r file rule; do
  slip "check of $file alone" 1 "refused 00000000 $rule" check "$file" <<.
$file:0x0: error: $rule: the file is a text, and \`check\` with one file takes raw code; a source is assembled by asm and linked by link first
  see docs/PLAIN.md, "The check"
.
done <<'.'
driver.asm~decode
driver.notes~form
.
slip 'a source given to check' 3 'bad driver.asm mz 0' check driver.asm driver.notes <<'.'
driver.asm:0x0: error: the first bytes are 3b 20; wanted: 4d 5a, MZ, with which an image begins; it is a text
  see docs/IMAGES.md, "Faults, and what to do about them"
.
: >empty.efi
slip 'an empty image' 3 'bad empty.efi short 0' check empty.efi driver.notes <<'.'
empty.efi:0x0: error: the file has 0 bytes; wanted: an image, which has at least 64
  see docs/IMAGES.md, "Faults, and what to do about them"
.
slip 'STEPS 100000000' 7 'large 100000000' twin driver.efi driver.notes driver.script 100000000 <<'.'
ebc: error: STEPS is 100000000; wanted: 10000000 at most
  see docs/COMMANDS.md, "Commands"
.
slip 'sample 5000' 7 'large 5000' sample 5000 <<'.'
ebc: error: N is 5000; wanted: 4096 at most
  see docs/COMMANDS.md, "Commands"
.
yes RET | head -n 300000 >big.asm
slip 'a source of more than 1 MiB' 7 'large big.asm' asm big.asm big.obj <<'.'
big.asm: error: SRC has more than 1048576 bytes; wanted: 1048576 at most
  see docs/COMMANDS.md, "Commands"
.

# ---- sources

edit driver.asm '  BREAK 5' $'\tBREAK 5'
slip 'a tab before a mnemonic' 3 'bad driver.asm word 5' $asm <<'.'
driver.asm:5:1: error: a tab; only spaces may stand here
  see docs/ASSEMBLY.md, "Faults"
.
crlf driver.asm
slip 'CR LF line ends' 3 'bad driver.asm label 2' $asm <<'.'
driver.asm:2:13: error: a carriage return at the end of the line; a line ends with a line feed alone
  see docs/ASSEMBLY.md, "Faults"
.
edit driver.asm 'BREAK 5' 'break 5'
slip 'a lower case mnemonic' 3 'bad driver.asm word 5' $asm <<'.'
driver.asm:5:3: error: `break` is no mnemonic; they are written in upper case with the bits of what follows, as MOVqw and CMPI64weq
  see docs/ASSEMBLY.md, "Faults"
.
edit driver.asm 'MOVRELd R7, cell' 'MOVRELd R7,cell'
slip 'no space after the comma' 3 'bad driver.asm operand 4' $asm <<'.'
driver.asm:4:14: error: no space after the comma; operands are set apart by a comma and one space
  see docs/ASSEMBLY.md, "Faults"
.
edit driver.asm 'MOVRELd R7, cell' 'MOVRELd  R7, cell'
slip 'two spaces to align operands' 3 'bad driver.asm operand 4' $asm <<'.'
driver.asm:4:11: error: a second space; exactly one stands after a mnemonic or directive
  see docs/ASSEMBLY.md, "Faults"
.
edit driver.asm $'  RET\nfailed:' $'  RET  # to the firmware\nfailed:'
slip 'a comment with #' 3 'bad driver.asm operand 22' $asm <<'.'
driver.asm:22:8: error: `#` begins no comment; a comment begins with `;`
  see docs/ASSEMBLY.md, "Faults"
.
edit driver.asm '.data' $'# what is kept:\n.data'
slip 'a line that is a comment with #' 3 'bad driver.asm label 29' $asm <<'.'
driver.asm:29:1: error: `#` begins no comment; a comment begins with `;`
  see docs/ASSEMBLY.md, "Faults"
.
edit driver.asm '.data' $'  //what is kept\n.data'
slip 'a line that is a comment with //' 3 'bad driver.asm word 29' $asm <<'.'
driver.asm:29:3: error: `//` begins no comment; a comment begins with `;`
  see docs/ASSEMBLY.md, "Faults"
.
edit driver.asm 'BREAK 5' 'ADD64 R5,  #5'
slip 'two spaces before a number with #' 3 'bad driver.asm operand 5' $asm <<'.'
driver.asm:5:13: error: a second space after the comma; operands are set apart by a comma and one space
  see docs/ASSEMBLY.md, "Faults"
.
edit driver.asm 'the thunk cell' 'la cellule créée'
slip 'a letter past ASCII in a comment' 3 'bad driver.asm word 4' $asm <<'.'
driver.asm:4:41: error: a byte past ASCII, 0xc3; a source is ASCII, in comments too
  see docs/ASSEMBLY.md, "Faults"
.
edit driver.asm $'failed:\n' $'failed\n'
slip 'a label without its colon' 3 'bad driver.asm word 23' $asm <<'.'
driver.asm:23:1: error: `failed` is no mnemonic; they are written in upper case with the bits of what follows, as MOVqw; a label has a colon after it
  see docs/ASSEMBLY.md, "Faults"
.
edit driver.asm $'failed:\n' $'1failed:\n'
slip 'a label that begins with a digit' 3 'bad driver.asm label 23' $asm <<'.'
driver.asm:23:1: error: `1failed` is no label; a name is 1 to 63 letters, digits, _ and ., with no digit in front, and no space before its colon
  see docs/ASSEMBLY.md, "Faults"
.
edit driver.asm tick: failed:
slip 'a label twice' 3 'bad driver.asm twice 26' $asm <<'.'
driver.asm:26:1: error: the label failed again, which line 23 has
  see docs/ASSEMBLY.md, "Faults"
.
edit driver.asm '.global main' '.global mian'
slip 'a .global that is never defined' 3 'bad driver.asm label 2' $asm <<'.'
driver.asm:2:9: error: no line has the label mian
  see docs/ASSEMBLY.md, "Faults"
.
edit driver.asm '@R0(+1,+16)' '@R0(+1,-16)'
slip 'an index of two signs' 3 'bad driver.asm operand 6' $asm <<'.'
driver.asm:6:16: error: an index has one sign twice, as (+1,+16) or (-1,-16), and no space
  see docs/ASSEMBLY.md, "Faults"
.
edit driver.asm 'MOVIqw R7, 0' 'MOVIqw R7, 100000'
slip 'a number too wide' 3 'bad driver.asm number 27' $asm <<'.'
driver.asm:27:14: error: `100000` is no number of MOVIqw; wanted: -32768 to 65535, in decimal digits without a 0 in front, or 0x and hexadecimal digits
  see docs/ASSEMBLY.md, "Faults"
.
edit driver.asm 'MOVIqw R7, 0' 'MOVIqw R7, 007'
slip 'a number with 0 in front' 3 'bad driver.asm number 27' $asm <<'.'
driver.asm:27:14: error: `007` is no number of MOVIqw; wanted: -32768 to 65535, in decimal digits without a 0 in front, or 0x and hexadecimal digits
  see docs/ASSEMBLY.md, "Faults"
.
edit driver.asm 'cell: .thunk tick' $'cell: .thunk tick\ns: .utf16 "Hi"'
slip 'a string directive' 3 'bad driver.asm word 31' $asm <<'.'
driver.asm:31:4: error: `.utf16` is no directive; they are .code, .data, .global, .db, .dw, .dd, .dq, .thunk and .zero
  see docs/ASSEMBLY.md, "Faults"
.
edit driver.asm 'cell: .thunk tick' $'  .align 8\ncell: .thunk tick'
slip .align 3 'bad driver.asm word 30' $asm <<'.'
driver.asm:30:3: error: `.align` is no directive; they are .code, .data, .global, .db, .dw, .dd, .dq, .thunk and .zero
  see docs/ASSEMBLY.md, "Faults"
.
edit driver.asm 'cell: .thunk tick' $'cell: .thunk tick\ns: .dw \'H\', \'i\', 0'
slip 'a character as a number' 3 'bad driver.asm number 31' $asm <<'.'
driver.asm:31:8: error: `'H'` is no number of .dw; wanted: -32768 to 65535, in decimal digits without a 0 in front, or 0x and hexadecimal digits
  see docs/ASSEMBLY.md, "Faults"
.
edit driver.asm 'MOVqw R5, R0  ' 'MOVq R5, R0  '
slip 'a MOV without its index letter' 3 'bad driver.asm word 8' $asm <<'.'
driver.asm:8:3: error: `MOVq` is no mnemonic; wanted: MOVb, MOVw, MOVd, MOVq, MOVn or MOVsn, and then w or d; or MOVqq
  see docs/ASSEMBLY.md, "Faults"
.
while IFS='~' read -r word forms; do
  edit driver.asm 'BREAK 5' "$word R5, R6"
  slip "the mnemonic $word" 3 'bad driver.asm word 5' $asm <<.
driver.asm:5:3: error: \`$word\` is no mnemonic; wanted: $forms
  see docs/ASSEMBLY.md, "Faults"
.
done <<'.'
JMP8eq~JMP8, JMP8cs or JMP8cc
JMP16~JMP8, JMP32, JMP32a, JMP64 or JMP64a, and then nothing, cs or cc
CALL~CALL32 or CALL64, and then nothing, a, EX or EXa
CMPI64wle~CMPI32w, CMPI32d, CMPI64w or CMPI64d, and then eq, lte, gte, ulte or ugte
CMP64~CMP32 or CMP64, and then eq, lte, gte, ulte or ugte
MOVRELb~MOVRELw, MOVRELd or MOVRELq
MOVIn~MOVInw, MOVInd or MOVInq
MOVI~MOVIb, MOVIw, MOVId, MOVIq or MOVIn, and then w, d or q
MOVsnq~MOVsnw or MOVsnd
MOVwq~MOVb, MOVw, MOVd, MOVq, MOVn or MOVsn, and then w or d; or MOVqq
PUSHq~PUSH32, PUSH64 or PUSHn
POP~POP32, POP64 or POPn
RETn~RET
BREAK5~BREAK
LOADSPn~LOADSP
STORESPn~STORESP
ADD~ADD32 or ADD64
MULU16~MULU32 or MULU64
EXTNDD~EXTNDD32 or EXTNDD64
.
edit driver.asm $'  RET\nfailed:' $'  RET0\nfailed:'
slip 'a mnemonic alone that is none' 3 'bad driver.asm word 22' $asm <<'.'
driver.asm:22:3: error: `RET0` is no mnemonic; wanted: RET; a label has a colon after it
  see docs/ASSEMBLY.md, "Faults"
.
edit driver.asm 'BREAK 5' 'ADDS64 R5, R6'
slip 'a mnemonic of other letters' 3 'bad driver.asm word 5' $asm <<'.'
driver.asm:5:3: error: `ADDS64` is no mnemonic; they are written in upper case with the bits of what follows, as MOVqw and CMPI64weq
  see docs/ASSEMBLY.md, "Faults"
.
edit driver.asm 'MOVdw R6, @R5' 'MOVdw R8, @R5'
slip 'a register R8' 3 'bad driver.asm operand 16' $asm <<'.'
driver.asm:16:9: error: no such register; they are R0 to R7
  see docs/ASSEMBLY.md, "Faults"
.
edit driver.asm '@R0(+1,+16)' '@R0(+1,+4096)'
slip 'an index that none spells' 3 'bad driver.asm index 6' $asm <<'.'
driver.asm:6:16: error: no index of 16 bits has room for `(+1,+4096)`; its two numbers share 12 bits, of which the natural units have 0, 2, or another multiple of 2
  see docs/ASSEMBLY.md, "Faults"
.
edit driver.asm 'R0(-1,-0)' 'R0(-0,-0)'
slip 'minus zero in parentheses' 3 'bad driver.asm index 7' $asm <<'.'
driver.asm:7:15: error: minus zero has no parentheses; it is written by its raw number, as #0x8000 in 16 bits
  see docs/ASSEMBLY.md, "Faults"
.
edit driver.asm $'  RET\nfailed' $'  RET 4\nfailed'
slip 'an operand of RET' 3 'bad driver.asm operand 22' $asm <<'.'
driver.asm:22:7: error: `4` are no operands of RET; wanted: none
  see docs/ASSEMBLY.md, "Faults"
.
edit driver.asm 'cell: .thunk tick' $'cell: .thunk tick\n  RET'
slip 'an instruction in data' 3 'bad driver.asm section 31' $asm <<'.'
driver.asm:31:3: error: an instruction in data; .code goes on with code
  see docs/ASSEMBLY.md, "Faults"
.
edit driver.asm 'cell: .thunk tick' $'cell: .thunk tick\n  .zero 1048576'
slip 'more than 1 MiB of data' 3 'bad driver.asm far 31' $asm <<'.'
driver.asm:31:3: error: the section passes 1048576 bytes here
  see docs/ASSEMBLY.md, "Faults"
.

# Of a long word its first 100 letters are told.
while IFS='~' read -r line fault words; do
  edit driver.asm '  BREAK 5' "${line//LONG/$long}"
  slip "a long word: $line" 3 "bad driver.asm $fault 5" $asm <<.
driver.asm:5:${words//LONG/$cut}
  see docs/ASSEMBLY.md, "Faults"
.
done <<'.'
  LONG R4~word~3: error: `LONG` is no mnemonic; they are written in upper case with the bits of what follows, as MOVqw and CMPI64weq
  BREAK LONG~number~9: error: `LONG` is no number of BREAK; wanted: -128 to 255, in decimal digits without a 0 in front, or 0x and hexadecimal digits
  RET LONG~operand~7: error: `LONG` are no operands of RET; wanted: none
LONG:~label~1: error: `LONG` is no label; a name is 1 to 63 letters, digits, _ and ., with no digit in front, and no space before its colon
  .zero LONG~number~9: error: `LONG` is no count of zeros; wanted: decimal digits without a sign and without a 0 in front, or 0x and hexadecimal digits
.

# ---- links

edit driver.asm 'JMP8cs failed' 'JMP8cs fialed'
before $asm
slip 'a misspelt label' 3 'bad driver.plan undefined fialed' $link <<'.'
driver.obj: code+0x21: error: fialed is used here, and no object defines it: a label in its source, or in another one a label with .global
  code+0x20 JMP8cs 0, with 0 in place of the name
  see docs/LINKING.md, "Faults"
.
edit driver.asm $'.global main\n' ''
before $asm
slip 'no .global' 3 'bad driver.plan entry main' $link <<'.'
driver.plan: error: the entry is main; wanted: a label of the code with .global; driver.obj defines it without .global
  see docs/LINKING.md, "Faults"
.
edit driver.asm $'  RET\nfailed:' $'  RET\n  .zero 300\nfailed:'
before $asm
slip 'a JMP8 too far' 3 'bad driver.plan far 4129' $link <<'.'
driver.obj: code+0x21: error: JMP8 goes 328 bytes to failed, at place 0x116a; wanted: an even distance from -256 to 254
  code+0x20 JMP8cs 0
  see docs/LINKING.md, "Faults"
.
edit driver.plan '["driver.obj"]' '["driver.obj", "again.obj"]'
before $asm
before asm driver.asm again.obj
slip 'a global name in two objects' 3 'bad driver.plan twice main' $link <<'.'
again.obj: error: main is defined for all here, and in driver.obj too; wanted: one .global of it
  see docs/LINKING.md, "Faults"
.
edit driver.asm $'.data\ncell:' $'.data\n.global cell\ncell:'
edit driver.plan '"main"' '"cell"'
before $asm
slip 'the entry in the data' 3 'bad driver.plan entry cell' $link <<'.'
driver.plan: error: the entry is cell; wanted: a label of the code with .global; driver.obj defines it in the data
  see docs/LINKING.md, "Faults"
.
edit driver.plan driver.obj drivr.obj
slip 'an object that is not there' 9 'missing drivr.obj' $link <<'.'
drivr.obj: error: an object of driver.plan can't be read: No such file or directory (os error 2)
  see docs/COMMANDS.md, "The answer"
.
edit driver.plan '"main"' '"efi_main"'
slip 'another entry' 3 'bad driver.plan entry efi_main' $link <<'.'
driver.plan: error: the entry is efi_main; wanted: a label of the code with .global; no object has it
  see docs/LINKING.md, "Faults"
.
edit driver.plan driver.obj driver.asm
slip 'the source named in place of the object' 3 'bad driver.asm mark 0' $link <<'.'
driver.asm:0x0: error: the first four bytes aren't EBCO, with which an object begins; it is a text; asm makes an object of a source
  see docs/OBJECTS.md, "Reading"
.
cut_to driver.obj driver.obj 100
slip 'an object that is cut off' 3 'bad driver.obj short 98' $link <<'.'
driver.obj:0x62: error: a field ends past the file, which has 100 bytes: it is cut off, or a length or count before is another
  see docs/OBJECTS.md, "Reading"
.

# ---- plans

edit driver.plan 11 '"driver"'
slip 'subsystem as a word' 3 'bad driver.plan kind subsystem' $link <<'.'
driver.plan:3:1: error: subsystem is a text; wanted: 10, 11 or 12
  see docs/LINKING.md, "Plans"
.
edit driver.plan 65536 0x400
slip 'base 0x400' 3 'bad driver.plan range base' $link <<'.'
driver.plan:4:8: error: base is 0x400; wanted: a number from 0 to 4294901760, a multiple of 65536
  see docs/LINKING.md, "Plans"
.
edit driver.plan 'base = 65536' $'base = 65536\nout = "x"'
slip 'an unknown key' 3 'bad driver.plan kind out' $link <<'.'
driver.plan:5:1: error: out is no key of this table
  see docs/LINKING.md, "Plans"
.
edit driver.plan '["driver.obj"]' '"driver.obj"'
slip 'a single object as a text' 3 'bad driver.plan kind objects' $link <<'.'
driver.plan:1:1: error: objects is a text; wanted: a list of 1 to 256 texts, the names of files of objects
  see docs/LINKING.md, "Plans"
.
edit driver.plan '["driver.obj"]' '["driver.obj", "driver.obj"]'
slip 'an object twice' 3 'bad driver.plan twice objects' $link <<'.'
driver.plan:1:26: error: driver.obj again, in item 1 of objects; item 0 has it
  see docs/LINKING.md, "Plans"
.

# ---- images

slip 'an object in place of the image' 3 'bad driver.obj mz 0' check driver.obj driver.notes <<'.'
driver.obj:0x0: error: the first bytes are 45 42; wanted: 4d 5a, MZ, with which an image begins; it begins as an object, and link makes an image of objects
  see docs/IMAGES.md, "Faults, and what to do about them"
.
cut_to cut.efi driver.efi 1500
slip 'a file cut off in its data' 3 'bad cut.efi section 368' check cut.efi driver.notes <<'.'
cut.efi:0x170: error: the raw bytes of section .data end at 0x600, and the file ends at 0x5dc: it is cut off
  see docs/IMAGES.md, "Faults, and what to do about them"
.
cut_to cut.efi driver.efi 63
slip 'a file of 63 bytes' 3 'bad cut.efi short 0' check cut.efi driver.notes <<'.'
cut.efi:0x0: error: the file has 63 bytes; wanted: an image, which has at least 64; it begins as an image
  see docs/IMAGES.md, "Faults, and what to do about them"
.
patch x64.efi driver.efi 68 '\x64\x86'
slip 'an image for x64' 3 'bad x64.efi machine 68' list x64.efi <<'.'
x64.efi:0x44: error: Machine is 0x8664, x64; wanted: 0x0ebc, EBC
  see docs/IMAGES.md, "Faults, and what to do about them"
.
patch pe32.efi driver.efi 88 '\x0b\x01'
slip 'a PE32 image' 3 'bad pe32.efi magic 88' list pe32.efi <<'.'
pe32.efi:0x58: error: Magic is 0x010b; wanted: 0x020b, PE32+
  see docs/IMAGES.md, "Faults, and what to do about them"
.
patch odd.efi driver.efi 104 '\x01\x10'
slip 'an odd entry' 3 'bad odd.efi entry 104' list odd.efi <<'.'
odd.efi:0x68: error: the entry is 0x1001; wanted: an even place inside a section
  see docs/IMAGES.md, "Faults, and what to do about them"
.
patch nope.efi driver.efi 64 XX
slip 'no PE signature' 3 'bad nope.efi pe 64' list nope.efi <<'.'
nope.efi:0x40: error: the signature is 0x00005858; wanted: 0x00004550, PE and two zeros
  see docs/IMAGES.md, "Faults, and what to do about them"
.
slip 'a text' 3 'bad driver.notes mz 0' list driver.notes <<'.'
driver.notes:0x0: error: the first bytes are 23 20; wanted: 4d 5a, MZ, with which an image begins; it is a text
  see docs/IMAGES.md, "Faults, and what to do about them"
.
head -c 200 /dev/zero >zeros
slip 'a file of zeros' 3 'bad zeros mz 0' list zeros <<'.'
zeros:0x0: error: the first bytes are 00 00; wanted: 4d 5a, MZ, with which an image begins
  see docs/IMAGES.md, "Faults, and what to do about them"
.
{ printf '\x7fELF\x02\x01\x01'; head -c 200 /dev/zero; } >program
slip 'an ELF program' 3 'bad program mz 0' list program <<'.'
program:0x0: error: the first bytes are 7f 45; wanted: 4d 5a, MZ, with which an image begins; it begins as an ELF program
  see docs/IMAGES.md, "Faults, and what to do about them"
.

# ---- option ROMs

slip 'image number 1 of one' 3 'bad driver.rom number 2048' rom take driver.rom 1 x.efi <<'.'
driver.rom: error: image 1 is asked for, and the ROM has 1, counted from 0
  see docs/ROMS.md, "What is taken"
.
cat driver.rom driver.rom >two.rom
slip 'two ROMs put together' 3 'bad two.rom number 2048' rom take two.rom 1 x.efi <<'.'
two.rom: error: image 1 is asked for, and the ROM has 1, counted from 0
  image 0 is marked as the last, and the 2048 bytes behind it are passed over
  see docs/ROMS.md, "What is taken"
.
slip 'check of a ROM' 3 'bad driver.rom mz 0' check driver.rom driver.notes <<'.'
driver.rom:0x0: error: the first bytes are 55 aa; wanted: 4d 5a, MZ, with which an image begins; it begins as an option ROM, and rom take takes an image out of one
  see docs/IMAGES.md, "Faults, and what to do about them"
.
slip 'wrap of an object' 3 'bad driver.obj mz 0' rom wrap 8086 1234 driver.obj x.rom <<'.'
driver.obj:0x0: error: the first bytes are 45 42; wanted: 4d 5a, MZ, with which an image begins; it begins as an object, and link makes an image of objects
  see docs/IMAGES.md, "Faults, and what to do about them"
.
slip 'rom list of an image' 3 'bad driver.efi mark 0' rom list driver.efi <<'.'
driver.efi:0x0: error: the first two bytes of an image are 0x5a4d; wanted: 0xaa55; it begins as an image
  see docs/ROMS.md, "Faults, and what to do about them"
.
cut_to cut.rom driver.rom 1500
slip 'a ROM that is cut off' 3 'bad cut.rom length 44' rom list cut.rom <<'.'
cut.rom:0x2c: error: the image at 0x0 has 4 blocks of 512 bytes, up to 0x800, and the file ends at 0x5dc: it is cut off
  see docs/ROMS.md, "Faults, and what to do about them"
.
# Two images, of which the first isn't marked as the last.
cat driver.rom driver.rom >both.rom
patch two.rom both.rom 49 '\x00'
cut_to two.rom two.rom 3000
slip 'a ROM that is cut off in its second image' 3 'bad two.rom length 2092' rom list two.rom <<'.'
two.rom:0x82c: error: the image at 0x800 has 4 blocks of 512 bytes, up to 0x1000, and the file ends at 0xbb8: it is cut off
  see docs/ROMS.md, "Faults, and what to do about them"
.
patch none.rom driver.rom 44 '\x00\x00'
slip 'a ROM whose length is 0' 3 'bad none.rom length 44' rom list none.rom <<'.'
none.rom:0x2c: error: ImageLength is 0; wanted: how many blocks of 512 bytes the image has
  see docs/ROMS.md, "Faults, and what to do about them"
.

# ---- plain code

printf '\x0c\x21\x04\x00' >form.bin
slip 'an instruction of another form' 1 'refused 00000000 form' check form.bin <<'.'
form.bin:0x0: error: form: raw code has MOVIqw, ADD64, CMP64eq, JMP8 and RET alone, on registers without memory
  0x0 ADD32 R1, R2
  see docs/PLAIN.md, "The check"
.
printf '\x77\x31\x05\x00' >end.bin
slip 'no RET' 1 'refused 00000000 end' check end.bin <<'.'
end.bin:0x0: error: end: the code ends here; wanted: RET or an unconditional JMP8 as the last instruction
  0x0 MOVIqw R1, 5
  see docs/PLAIN.md, "The check"
.
printf '\x04\x00\x77\x31' >half.bin
slip 'half an instruction' 1 'refused 00000002 decode' check half.bin <<'.'
half.bin:0x2: error: decode: the bytes are no instruction
  see docs/PLAIN.md, "The check"
.
printf '\x02\x01\x77\x31\x05\x00\x04\x00' >inner.bin
slip 'a jump of plain code into an instruction' 1 'refused 00000000 target' check inner.bin <<'.'
inner.bin:0x0: error: target: the jump goes to no start of an instruction
  0x0 JMP8 1
  see docs/PLAIN.md, "The check"
.
: >empty.bin
slip 'an empty file' 1 'refused 00000000 end' check empty.bin <<'.'
empty.bin:0x0: error: end: the file is empty; wanted: code that ends with RET or a jump
  see docs/PLAIN.md, "The check"
.

# ---- the outside: names with control characters, pipes, devices, folders, and what fails

slip 'a name with controls' 9 $'missing a\e[31m\xc2\x9bx' check $'a\e[31m\xc2\x9bx' driver.notes <<'.'
a\u001b[31m\u009bx: error: IMAGE can't be read: No such file or directory (os error 2)
  see docs/COMMANDS.md, "The answer"
.
slip 'a name of two lines' 9 'missing a' check $'a\nb' driver.notes <<'.'
a\u000ab: error: IMAGE can't be read: No such file or directory (os error 2)
  see docs/COMMANDS.md, "The answer"
.
slip 'a word that is not UTF-8' 2 usage check $'\xff' driver.notes <<'.'
ebc: error: no words; a command is wanted: asm, link, check, list, run, twin, sample, rom, infer or pair
  see docs/COMMANDS.md, "Commands"
.
edit driver.notes $'level = 1\n' ''
mkfifo pipe && { cat driver.notes >pipe & }
slip 'notes out of a pipe' 3 'bad pipe missing function[0].level' check driver.efi pipe <<'.'
pipe:27:1: error: function[0] has no key level; wanted: a number from 0 on
  see docs/NOTES.md, "The file" and "Texts"
.
yes '# a line of twenty-four' | head -n 43000 >>driver.notes
echo 'level = = 1' >>driver.notes
slip 'a fault in the last line of a long text' 3 'bad driver.notes nottoml -' $check <<'.'
driver.notes:43074:9: error: this is no TOML: invalid value, expected a string, number, boolean, date-time, array or inline table
  see docs/NOTES.md, "The file" and "Texts"
.
output=/dev/full slip 'a full disk' 5 '' list driver.efi <<'.'
ebc: error: the output can't be written: No space left on device (os error 28)
  see docs/COMMANDS.md, "Exit status"
.
slip 'a device in place of the object' 5 '' asm driver.asm /dev/full <<'.'
/dev/full: error: OBJ can't be written: No space left on device (os error 28)
  see docs/COMMANDS.md, "Exit status"
.
slip 'a folder in place of the object' 5 '' asm driver.asm . <<'.'
.: error: OBJ can't be written: Is a directory (os error 21)
  see docs/COMMANDS.md, "Exit status"
.
slip 'an object in no folder' 5 '' asm driver.asm none/driver.obj <<'.'
none/driver.obj: error: OBJ can't be written: No such file or directory (os error 2)
  see docs/COMMANDS.md, "Exit status"
.
slip 'a file that the system does not give' 4 '' check /proc/self/mem driver.notes <<'.'
/proc/self/mem: error: IMAGE can't be read: Input/output error (os error 5)
  see docs/COMMANDS.md, "The answer"
.
edit driver.asm 'BREAK 5' 'BREAK 256'
mkfifo pipe && { cat driver.asm >pipe & }
slip 'a source out of a pipe' 3 'bad pipe number 5' asm pipe driver.obj <<'.'
pipe:5:9: error: `256` is no number of BREAK; wanted: -128 to 255, in decimal digits without a 0 in front, or 0x and hexadecimal digits
  see docs/ASSEMBLY.md, "Faults"
.
edit driver.script 'args = ["entry tick"]' 'args = ["null"]'
mkfifo pipe && { cat driver.script >pipe & }
slip 'a script out of a pipe' 0 'end 20 00001038 mismatch argument 0 .. same' twin driver.efi driver.notes pipe 1000 <<'.'
pipe:27:1: note: at both widths argument 0 of the driver's call is entry tick, and call[1] has null
  see docs/SCRIPTS.md, "A run that goes wrong"
.
mkfifo pipe && { cat driver.efi >pipe & }
slip 'an image out of a pipe' 0 neutral check pipe driver.notes </dev/null
{ yes RET | head -n 262142; echo '  RETT'; } >long.asm
slip 'a fault in the last line of a source of 1 MiB' 3 'bad long.asm word 262143' asm long.asm driver.obj <<'.'
long.asm:262143:3: error: `RETT` is no mnemonic; they are written in upper case with the bits of what follows, as MOVqw; a label has a colon after it
  see docs/ASSEMBLY.md, "Faults"
.
for file in script:SCRIPTS:43030 plan:LINKING:43005; do
  IFS=: read -r kind page line <<<"$file"
  { yes '# a line of twenty-four' | head -n 43000; echo 'level = = 1'; } >>"driver.$kind"
  words=$link section='"Plans"'
  [ "$kind" = script ] && words=$twin section='"The file" and "Texts"'
  slip "a fault in the last line of a long $kind" 3 "bad driver.$kind nottoml -" $words <<.
driver.$kind:$line:9: error: this is no TOML: invalid value, expected a string, number, boolean, date-time, array or inline table
  see docs/$page.md, $section
.
done
for ((number = 0; number < 12000; number++)); do printf '[[static]]\nplace = %d\nshape = "Blk"\ncount = 1\n' $((0x3000 + number)); done >>driver.notes
echo 'level = 1' >>driver.notes
slip 'an unknown key in the last of 12,000 tables' 3 'bad driver.notes kind static[11999].level' $check <<'.'
driver.notes:48074:1: error: static[11999].level is no key of this table
  see docs/NOTES.md, "The file" and "Texts"
.
slip 'a command with controls' 2 usage $'\xc2\x9b31mchk\x7f' <<'.'
ebc: error: `\u009b31mchk\u007f` is no command; wanted: asm, link, check, list, run, twin, sample, rom, infer or pair
  see docs/COMMANDS.md, "Commands"
.
edit driver.plan '"driver.obj"' '"a\u001b[31m.obj"'
slip 'an object whose name has controls' 9 $'missing a\e[31m.obj' $link <<'.'
a\u001b[31m.obj: error: an object of driver.plan can't be read: No such file or directory (os error 2)
  see docs/COMMANDS.md, "The answer"
.
edit driver.asm 'BREAK 5' $'BR\x7fEAK 5'
slip 'a mnemonic with a control' 3 'bad driver.asm word 5' $asm <<'.'
driver.asm:5:3: error: `BR\u007fEAK` is no mnemonic; they are written in upper case with the bits of what follows, as MOVqw and CMPI64weq
  see docs/ASSEMBLY.md, "Faults"
.
edit driver.notes '"count 0 0 i32"' $'"count 0 0 i\xc2\x9b32"'
slip 'a text of notes with a control' 3 'bad driver.notes range shape[1].fields' $check <<'.'
driver.notes:15:11: error: item 0 of shape[1].fields is "count 0 0 i\u009b32"; wanted: at most 256 texts NAME N C CELL
  CELL is i8, i16, i32, i64, n, stat, handle, entry, ptr:S*K, ptr?:S*K, p64:S*K, p64?:S*K or method:M
  see docs/NOTES.md, "The file" and "Texts"
.
edit driver.notes 'version = 1' $'version = 1\n"x\\nneutral" = 1'
slip 'a key of two lines' 3 'bad driver.notes kind "x\u000aneutral"' $check <<'.'
driver.notes:3:1: error: "x\u000aneutral" is no key of this table
  see docs/NOTES.md, "The file" and "Texts"
.
# Programs that run the program: with its output closed, into a pipe that nobody reads, and without the rights of root.
run_as() {
  printf '#!/usr/bin/env bash\n%s exec %s "%s" "$@" %s\n' "${@:2:1}" "${@:3:1}" "$EBC" "${@:4}" >"$room/$1" && chmod +x "$room/$1"
}
run_as closed '' '' '>&-'
run_as unread 'trap "" PIPE; mkfifo "$0.fifo"; exec 3<>"$0.fifo" 4>"$0.fifo" 3>&-; rm "$0.fifo";' '' '>&4'
drop=
[ "$(id -u)" = 0 ] && drop='setpriv --bounding-set=-all --inh-caps=-all'
run_as barred '' "$drop" ''
EBC=$room/closed slip 'a closed output' 5 '' list driver.efi <<'.'
ebc: error: the output can't be written: Bad file descriptor (os error 9)
  see docs/COMMANDS.md, "Exit status"
.
EBC=$room/unread slip 'an output that nobody reads' 5 '' list driver.efi <<'.'
ebc: error: the output can't be written: Broken pipe (os error 32)
  see docs/COMMANDS.md, "Exit status"
.
output=/dev/full slip 'a full disk of a run that ends amiss' 5 '' run 32 driver.efi driver.notes driver.script 10 <<'.'
ebc: error: the output can't be written: No space left on device (os error 28)
  see docs/COMMANDS.md, "Exit status"
.
chmod 0 driver.notes
EBC=$room/barred slip 'no right to read' 4 '' $check <<'.'
driver.notes: error: NOTES can't be read: Permission denied (os error 13)
  see docs/COMMANDS.md, "The answer"
.
chmod 444 driver.obj
EBC=$room/barred slip 'no right to write' 5 '' $asm <<'.'
driver.obj: error: OBJ can't be written: Permission denied (os error 13)
  see docs/COMMANDS.md, "Exit status"
.
slip 'a folder in place of a source' 4 '' asm . driver.obj <<'.'
.: error: SRC can't be read: Is a directory (os error 21)
  see docs/COMMANDS.md, "The answer"
.
edit driver.plan '"driver.obj"' '"."'
slip 'a folder in place of an object of a plan' 4 '' $link <<'.'
.: error: an object of driver.plan can't be read: Is a directory (os error 21)
  see docs/COMMANDS.md, "The answer"
.
# What is done says nothing.
slip 'the driver' 0 neutral $check </dev/null
slip 'its run' 0 'end 32 gate finished status ok 0 .. same' $twin </dev/null

. "$here/refusals.sh"
. "$here/causes.sh"
. "$here/endings.sh"
exit "$failed"
