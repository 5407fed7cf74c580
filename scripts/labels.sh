#!/usr/bin/env bash
# Rows of the program `ebc_notes`: sources, a plan and notes with labels, and what is printed of them, with its status. What a row wants is
# taken from docs/LABELS.md, docs/NOTES.md and docs/ENCODING.md.
#
# Prints the name of each row that differs, and below it the lines that differ: `<` is wanted. Ends with status 1 if there was one. EBC and
# EBC_NOTES name the programs, by default the scripts of bin/. The word `large` asks for the large rows alone, and `all` for all.
# Status 6 is tried by .ci/checks, on the program itself.
set -u
top=$(CDPATH='' cd -- "$(dirname -- "${BASH_SOURCE[0]}")/.." >/dev/null && pwd -P)
EBC=$(realpath -e -- "${EBC:-$top/bin/ebc}") && EBC_NOTES=$(realpath -e -- "${EBC_NOTES:-$top/bin/ebc_notes}") || exit 1
room=$(mktemp -d) || exit 1
trap 'rm -rf "$room"' EXIT
cd "$room" || exit 1
failed=0
fail() { printf 'labels: %s\n' "$*"; failed=1; }

# ---- rows

# The row of this name: the words of `ebc_notes`, which have to end with this status and print what stands on standard input.
row() {
  { cat; echo "status $2"; } >wanted
  answer "${@:3}" >found
  compare "$1"
}
answer() { "$EBC_NOTES" "$@" 2>/dev/null; echo "status $?"; }
# The row of this name: what the words make `ebc_notes` say on standard error.
said() {
  cat >wanted
  "$EBC_NOTES" "${@:2}" 2>found >/dev/null
  compare "$1"
}
compare() { cmp -s wanted found || fail "$1"$'\n'"$(diff wanted found | head -n 12)"; }
# The same of lines in one word.
line() { row "$1" "$2" "${@:4}" <<<"$3"; }
# The row of a plan whose notes are lines, and of the fault in them.
told() { lines "${@:4}" >n; line "$1" 3 "bad n $3" "$2" n; }
# The same of the first two lines that are printed.
begins() {
  answer "${@:4}" | sed -n '1,2p; $p' >found
  printf '%s\nstatus %s\n' "$3" "$2" >wanted
  compare "$1"
}
# Whether the image of a plan is neutral under what `ebc_notes` makes of notes.
neutral() {
  "$EBC_NOTES" "$2" "$3" >made 2>/dev/null && "$EBC" link "$2" made.efi >/dev/null 2>&1
  [ "$("$EBC" check made.efi made 2>/dev/null)" = neutral ] || fail "$1"$'\n'"$(head -n 6 made)"
}

# Lines that stand in words, with bars between them.
lines() { printf '%s\n' "$@" | sed 's/ *| */\n/g'; }
# Assembles the source NAME.asm, or one of such lines, to NAME.obj.
assemble() { "$EBC" asm "$1.asm" "$1.obj" >/dev/null 2>&1 || fail "$1.asm isn't assembled"; }
source_of() { lines "${@:2}" >"$1.asm"; assemble "$1"; }
# A plan of objects, with its entry.
plan_of() {
  printf 'objects = ['
  printf '"%s", ' "${@:2}"
  printf ']\nentry = "%s"\nsubsystem = 11\nbase = 65536\n' "$1"
}
# The source with an instruction more behind each line that is one of these labels alone.
longer() { sed -E "s/^($1):\$/&\n  MOVqw R4, R4/" "$2"; }

# The beginning of complete notes, a table of them, and a function: NAME PLACE END LEVEL NEED RESULT, and what else it has.
head_of() { printf 'entry = "%s"\nversion = 1\n' "$1"; }
table() { printf '\n[[%s]]\n' "$1"; lines "${@:2}" | LC_ALL=C sort; }
function_of() { table function "name = \"$1\" | place = $2 | end = $3 | level = $4 | need = $5 | result = \"$6\"" "${@:7}"; }

# ---- the examples

# The driver, which other rows edit.
driver() { cp "$top"/examples/driver/driver.{asm,plan,labels} . && assemble driver; }
examples() {
  local name
  cp "$top"/examples/{driver,pair}/*.{asm,plan,labels} .
  for name in driver consumer provider; do
    assemble $name
    row "the notes of $name" 0 $name.plan $name.labels < <(cat "$top"/examples/{driver,pair}/$name.notes 2>/dev/null)
    longer 'main|failed|tick|double' $name.asm >longer.asm
    "$EBC" asm longer.asm $name.obj
    neutral "$name with more instructions" $name.plan $name.labels && assemble $name
  done
  line 'the map of the driver' 0 $'00001000 main\n0000103e failed\n00001044 tick\n00002000 cell' driver.plan
}

small_sample() { sample 3; }
# The sample of so many functions: docs/COMMANDS.md, "Samples". Its notes with labels have names and results alone.
sample() {
  local sum='function sum(k) { return n * (n - 1) / 2 - k * (k - 1) / 2 }'
  awk -v n="$1" 'BEGIN { print ".global f0"
    for (k = 0; k < n - 1; k++) printf "f%d:\nCALL32 f%d\nMOVIqw R4, %d\nADD64 R7, R4\nRET\n", k, k + 1, k
    printf "f%d:\nMOVIqw R7, %d\nRET\n", n - 1, n - 1 }' >sample.asm
  assemble sample
  plan_of f0 sample.obj >sample.plan
  awk -v n="$1" "$sum"'BEGIN { for (k = 0; k < n; k++) printf "[[function]]\nname = \"f%d\"\nresult = \"int:%d..%d\"\n", k, sum(k), sum(k) }' >n
  row "the sample of $1 functions" 0 sample.plan n < <(
    head_of f0
    awk -v n="$1" "$sum"'BEGIN { for (k = 0; k < n; k++) {
      p = 4096 + 14 * k
      printf "\n[[function]]\nend = %d\nlevel = %d\nname = \"f%d\"\n", p + (k == n - 1 ? 6 : 14), n - 1 - k, k
      printf "need = [0, %d]\nplace = %d\nresult = \"int:%d..%d\"\n", 16 * (n - 1 - k), p, sum(k), sum(k) } }')
}

# ---- several objects

# Two objects that both have the labels `part` and `data`.
two_objects() {
  source_of a '.global main | main: | CALL32 other | CALL32 part | RET | part: | MOVIqw R7, 1 | RET | .data | data: .dd 1, 2, 3'
  source_of b '.global other | other: | CALL32 part | RET | part: | MOVIqw R7, 2 | RET | .data | data: .dd 4, 5'
  plan_of main a.obj b.obj >two.plan
  row 'the map of two objects' 0 two.plan < <(
    lines '00001000 main | 0000100e a.obj:part | 00001014 other | 0000101c b.obj:part | 00002000 a.obj:data | 00002010 b.obj:data')
  lines 'function = [{ name = "other" }, { name = "second", place = "b.obj:part" }, { name = "first", place = "a.obj:part" }, { name = "main" }]' \
    'shape = [{ name = "D", size = [0, 4], fields = ["x 0 0 i32"] }]' \
    'static = [{ place = "b.obj:data", shape = "D" }, { place = "a.obj:data+4", shape = "D" }]' >n
  row 'labels with their object' 0 two.plan n < <(
    head_of main
    function_of main 4096 4110 2 '[0, 32]' any
    function_of first 4110 4116 0 '[0, 0]' any
    function_of other 4116 4124 1 '[0, 16]' any
    function_of second 4124 4130 0 '[0, 0]' any
    table shape 'name = "D" | size = [0, 4] | fields = ["x 0 0 i32"]'
    table static 'place = 8208 | count = 2 | shape = "D"'
    table static 'place = 8196 | count = 2 | shape = "D"')
  told 'a function whose label two objects have' two.plan 'twice function[1].place part 5:8' '[[function]] | name = "main"' '' '[[function]] | name = "part"'
}

# Counts that end at the next label, at one inside an object of several instances, and at the section's end.
counts() {
  source_of counts '.global main | main: | RET | .data | same: | first: .dd 1, 2, 3 | inner: .dd 4, 5 | last: .zero 20'
  source_of behind '.data | behind: .dq 0'
  plan_of main counts.obj behind.obj >counts.plan
  lines 'function = [{ name = "main" }]' \
    'shape = [{ name = "D", size = [0, 4], fields = ["x 0 0 i32"] }, { name = "N", size = [1, 0], fields = ["x 0 0 n"] }]' >shapes
  count_row 'a count up to the next label' 'place = "first", shape = "D"' 'count = 3 | place = 8192 | shape = "D"'
  count_row 'a label where another stands too' 'place = "same", shape = "D"' 'count = 3 | place = 8192 | shape = "D"'
  count_row 'a count from within' 'place = "first+4", shape = "D"' 'count = 2 | place = 8196 | shape = "D"'
  count_row "a count up to the section's end" 'place = "last", shape = "D"' 'count = 5 | place = 8212 | shape = "D"'
  count_row 'a count of what width 8 takes' 'place = "last", shape = "N"' 'count = 2 | place = 8212 | shape = "N"'
  count_row 'a count that is written, over a label' 'place = "first", shape = "D", count = 5' 'count = 5 | place = 8192 | shape = "D"'
  count_row "another object's data" 'place = "behind", shape = "N"' 'count = 1 | place = 8232 | shape = "N"'
  { cat shapes; lines '[[static]] | place = "first+8" | shape = "N"'; } >n
  line 'a count of none' 3 'bad n range static[0].count 3:1' counts.plan n
}
# A static object of the notes, and as it is wanted.
count_row() {
  { echo "static = [{ $2 }]"; cat shapes; } >n
  row "$1" 0 counts.plan n < <(
    head_of main
    function_of main 4096 4098 0 '[0, 0]' any
    table shape 'name = "D" | size = [0, 4] | fields = ["x 0 0 i32"]'
    table shape 'name = "N" | size = [1, 0] | fields = ["x 0 0 n"]'
    table static "$3")
}

# ---- what may be left out

# A program with all that may be left out: a thunk, a static object, calls of byte code and of native code, and a jump.
own_program() {
  source_of own '.global main | main: | MOVRELd R7, cell | BREAK 5 | MOVRELd R4, table | MOVdw R4, @R4(+0,+4) | PUSH64 R4 | CALL32 half' \
    'MOVqw R0, R0(+0,+8) | CMPI64weq R7, 0 | JMP8cs done | PUSHn R7 | MOVnw R5, @R0(+2,+16)' \
    'call: | CALL32EXa @R5 | MOVqw R0, R0(+1,+0)' \
    'done: | MOVIqw R7, 0 | RET' \
    'half: | MOVqw R7, @R0(+0,+16) | MOVIqw R4, 1 | SHR64 R7, R4 | RET' \
    'tick: | MOVIqw R7, 0 | RET' \
    '.data | table: .dd 1, 2, 3, 4 | cell: .thunk tick'
  plan_of main own.obj >own.plan
  # The complete text. Behind a line that may be left out stands what it is.
  lines 'version = 1 # version | entry = "main" # entry' \
    '[[static]] | place = "table" | shape = "Two" | count = 2 # count' '[[thunk]] | place = "cell" | function = "tick"' \
    '[[function]] | name = "main" | place = "main" # place | end = "half" # end | level = 1 # level | need = [0, 24] # need' \
    'params = ["n handle", "n ptr:Sys"] | result = "status"' \
    '[[function]] | name = "half" | place = "main+54" # place | end = "own.obj:tick" # end | level = 0 # level | need = [0, 0] # need' \
    'params = ["q int:0..4294967295"] | result = "int:0..2147483647"' \
    '[[function]] | name = "tick" | place = 4162 # place | end = 4168 # end | level = 0 # level | need = [0, 0] # need' \
    'params = ["n int:0..4294967295"] | result = "any" # result | enter = true # enter' \
    '[[shape]] | name = "Sys" | size = [1, 0] | fields = ["put 0 0 method:Put"]' \
    '[[shape]] | name = "Two" | size = [0, 8] | fields = ["x 0 0 i32", "y 0 4 i32"]' \
    '[[signature]] | name = "put" | method = "Put" | params = ["n int:0..4294967295"] | result = "none"' \
    '[[point]] # point | place = "done" # point | made = 1 # point' \
    '[[site]] # site | place = "call" # site | signature = "put" # site' >own.labels
}
# Its complete notes, with what else the point has, and with more signatures.
own_notes() {
  head_of main
  function_of main 4096 4150 1 '[0, 24]' status 'params = ["n handle", "n ptr:Sys"]'
  function_of half 4150 4162 0 '[0, 0]' int:0..2147483647 'params = ["q int:0..4294967295"]'
  function_of tick 4162 4168 0 '[0, 0]' any 'params = ["n int:0..4294967295"] | enter = true'
  table point "made = 1 | place = 4144${1:+ | $1}"
  table shape 'name = "Sys" | size = [1, 0] | fields = ["put 0 0 method:Put"]'
  table shape 'name = "Two" | size = [0, 8] | fields = ["x 0 0 i32", "y 0 4 i32"]'
  table signature 'name = "put" | method = "Put" | params = ["n int:0..4294967295"] | result = "none"'
  [ $# -lt 2 ] || table signature "$2"
  table site 'place = 4138 | signature = "put"'
  table static 'place = 8192 | count = 2 | shape = "Two"'
  table thunk 'place = 8208 | function = "tick"'
}
found_point='regs = [] | stack = [] | written = []'
# The text of `own_program` without the lines of these kinds.
without() { sed -E "/ # ($1)\$/d" own.labels; }

left_out() {
  local kind
  own_program
  own_notes "$found_point" >own.notes
  row 'the complete text' 0 own.plan own.labels < <(own_notes)
  for kind in version entry count place end result enter level need; do
    without $kind >n
    row "$kind left out" 0 own.plan n < <(own_notes)
  done
  for kind in point 'point|site' 'point|site|level|need' 'point|place|end'; do
    without "$kind" >n
    row "$kind left out" 0 own.plan n <own.notes
  done
  without '[a-z]+' >least.labels
  row 'all left out' 0 own.plan least.labels <own.notes
  without site >n
  line 'sites left out beside a point' 1 $'refused 0000102a site\nat call\nregs R5 ptr:Sys, R7 int:1..2147483647
stack n int:1..2147483647\nwritten\nmade 1' own.plan n
  longer 'main|half|tick' own.asm | sed 's/^table:/.zero 8\n&/; s/^done:/  MOVqw R4, R4\n&/' >longer.asm
  "$EBC" asm longer.asm own.obj
  neutral 'all left out, with more instructions and data' own.plan least.labels && assemble own
}

# What is written stays: an edit of the text of which all is left out, and the edit of the notes.
written() {
  local name text notes
  while IFS='~' read -r name text notes; do
    sed -E "$text" least.labels >n
    row "written: $name" 0 own.plan n < <(sed -E "$notes" own.notes)
  done <<'EDITS'
level 3~s/^name = "main"/&\nlevel = 3/~s/^level = 1/level = 3/
a larger need~s/^name = "half"/&\nneed = [2, 8]/~s/^need = \[0, 24\]/need = [2, 32]/; /^name = "half"/,/^place/s/^need.*/need = [2, 8]/
count 1~s/^shape = "Two"/&\ncount = 1/~s/^count = 2/count = 1/
enter false~s/^name = "half"/&\nenter = false/~s/^end = 4162/&\nenter = false/
a result of more~s/2147483647/4294967295/~s/2147483647/4294967295/
EDITS
  sed 's/^name = "tick"/&\nenter = false/' least.labels >n
  line 'written: enter false of what a thunk enters' 1 $'refused 00002010 static\nat cell' own.plan n
}

# Functions, points and sites in another order, and points and sites of the text's own.
order() {
  {
    lines '[[site]] | place = "main+50" | signature = "register"' '[[site]] | place = "main+20" | signature = "locate"' \
      '[[point]] | place = "failed" | regs = ["R7 status!p"] | stack = ["locals"] | made = 1' \
      '[[function]] | name = "tick" | params = ["n int:0..4294967295"] | result = "status"'
    awk 'BEGIN { RS = ""; ORS = "\n\n" } !/name = "tick"/' driver.labels
  } >n
  row 'another order, and own points and sites' 0 driver.plan n < <(
    sed 's/^regs = .*/regs = ["R7 status!p"]/; /^written = \[\]$/d' "$top/examples/driver/driver.notes" | tee ordered.notes)
  sed 's/^name = "tick"/&\nneed = [1, 0]/' n >m
  row "another order, and one need of the text's own" 0 driver.plan m < <(sed '/^name = "tick"/,/^place/s/^need.*/need = [1, 0]/' ordered.notes)
}

# Several signatures of one method.
signatures() {
  local params other state=$'at call\nregs R5 ptr:Sys, R7 int:1..2147483647\nstack n int:1..2147483647\nwritten\nmade 1'
  for params in '"n handle"' '"q int:0..4294967295"' '"n int:2..2147483647"' '"n int:0..4294967295", "n any"'; do
    other="method = \"Put\" | name = \"other\" | params = [$params] | result = \"none\""
    { cat least.labels; table signature "$other"; } >n
    row "the signature by its arguments, beside [$params]" 0 own.plan n < <(own_notes "$found_point" "$other")
  done
  other='method = "Put" | name = "other" | params = ["n any"] | result = "none"'
  { cat least.labels; table signature "$other"; } >n
  line 'two signatures that fit' 1 $'refused 0000102a site\n'"$state" own.plan n
  { cat n; table site 'place = "call" | signature = "other"'; } >m
  row 'two signatures that fit, and a site' 0 own.plan m < <(
    own_notes "$found_point" "$other" | sed 's/^signature = "put"/signature = "other"/')
  sed -i 's/"n any"/"n handle"/; /^name = "put"/,/^params/s/int:0../int:9999999../' n
  line 'two signatures of which none fits' 1 $'refused 0000102a site\n'"$state" own.plan n
}

# ---- needs and levels

# Items of all kinds, locals, and a chain of calls; what is greatest at both widths in one place, and in two.
needs() {
  source_of needs '.global main | main: | PUSHn R4 | PUSH64 R4 | PUSH32 R4 | CALL32 mid | MOVqw R0, R0(+1,+12) | RET' \
    'mid: | MOVqw R0, R0(-2,-4) | CALL32 leaf | MOVqw R0, R0(+2,+4) | RET' \
    'leaf: | PUSH64 R4 | POP64 R4 | RET' \
    'mix: | PUSHn R4 | PUSHn R4 | MOVqw R0, R0(+2,+0) | PUSH32 R4 | PUSH32 R4 | PUSH32 R4 | MOVqw R0, R0(+0,+12) | RET' \
    'odd: | PUSHn R4 | PUSHn R4 | MOVqw R0, R0(+2,+0) | MOVqw R0, R0(-0,-9) | MOVqw R0, R0(+0,+9) | RET'
  plan_of main needs.obj >needs.plan
  lines 'shape = [{ name = "M", size = [2, 4] }, { name = "O", size = [0, 9] }]' \
    '[[function]] | name = "main" | [[function]] | name = "mid" | locals = "M" | [[function]] | name = "leaf"' \
    '[[function]] | name = "mix" | [[function]] | name = "odd" | locals = "O"' >needs.labels
  local name need place rule spot
  row 'needs and levels' 0 needs.plan needs.labels < <(
    head_of main
    function_of main 4096 4114 2 '[3, 56]' any
    function_of mid 4114 4130 1 '[2, 28]' any 'locals = "M"'
    function_of leaf 4130 4136 0 '[0, 8]' any
    function_of mix 4136 4156 0 '[1, 8]' any
    function_of odd 4156 4174 0 '[1, 8]' any 'locals = "O"'
    table shape 'name = "M" | size = [2, 4]'
    table shape 'name = "O" | size = [0, 9]')
  while read -r name need place rule spot; do
    sed "s/^name = \"$name\"/&\nneed = [$need]/" needs.labels >n
    begins "a need of [$need] in $name" 1 "refused $place $rule"$'\n'"at $spot" needs.plan n
  done <<'LESS'
main 3,55 00001006 level main+6
mid 2,27 00001016 level mid+4
leaf 0,7 00001022 stack leaf
mix 1,7 0000102a stack mix+2
mix 2,0 00001034 stack mix+12
odd 1,7 0000103e stack odd+2
odd 2,0 00001044 stack odd+8
LESS
  sed 's/^name = "main"/&\nlevel = 1/' needs.labels >n
  begins 'the level of the callee' 1 $'refused 00001006 level\nat main+6' needs.plan n
}

# The greatest need of a function that the firmware enters, and more: nine frames, each of 16 bytes and the need, take at most 1 MiB.
greatest_need() {
  local bytes
  for bytes in 116492 116496; do
    source_of need$bytes ".global main | main: | MOVqd R0, R0(-0,-$bytes) | MOVqd R0, R0(+0,+$bytes) | RET"
    plan_of main need$bytes.obj >need$bytes.plan
    lines "shape = [{ name = \"B\", size = [0, $bytes] }]" '[[function]] | name = "main" | locals = "B"' >n$bytes
  done
  row 'the greatest need' 0 need116492.plan n116492 < <(
    head_of main
    function_of main 4096 4110 0 '[0, 116492]' any 'locals = "B"'
    table shape 'name = "B" | size = [0, 116492]')
  line 'a need past the greatest' 3 'bad n116496 range function[0].need 2:1' need116496.plan n116496
}

# Functions that call each other, or themselves: the first by place is told, and not their caller.
recursion() {
  source_of round '.global main | main: | CALL32 one | RET | one: | CALL32 two | RET | two: | CALL32 one | RET'
  source_of self '.global main | main: | CALL32 self | RET | self: | CALL32 self | RET'
  plan_of main round.obj >round.plan && plan_of main self.obj >self.plan
  told 'a function that calls itself' self.plan 'missing function[1].level self 4:8' '[[function]] | name = "main" | [[function]] | name = "self"'
  told 'functions that call each other' round.plan 'missing function[1].level one 4:8' \
    '[[function]] | name = "main" | [[function]] | name = "one" | [[function]] | name = "two"'
  told 'functions that call each other, in another order' round.plan 'missing function[2].level one 6:8' \
    '[[function]] | name = "two" | [[function]] | name = "main" | [[function]] | name = "one"'
}

# ---- what is answered

# The faults of labels at each list: a fault, and a label that has it.
label_faults() {
  plan_of main a.obj b.obj >p
  {
    printf 'range %s\n' '' 1main main+ +4 main+04 'main + 4' main+-1 main+4194304 a.obj: a.obj:b.obj:part main+4+4 "$(printf 'L%.0s' {1..64})"
    printf 'name %s\n' mai Main c.obj:part a.obj:other :main mai+4194303
    printf 'twice %s\n' part part+2 data
  } >flaws
  labels_at static place 3:9 <flaws
  labels_at thunk place 3:9 <flaws
  printf 'kind %s\n' a.obj:data b.obj:data+4 >>flaws
  labels_at function place 4:9 'name = "main"' <flaws
  labels_at function end 4:7 'name = "main"' <flaws
  labels_at point place 3:9 <flaws
  labels_at site place 3:9 <flaws
}
# The faults on standard input at a key of a list, told at this line and column, with a line of the table before it.
labels_at() {
  local fault label
  while read -r fault label; do
    { echo '# labels'; lines "[[$1]]" "${@:4}" "$2 = \"$label\""; } >n
    line "the label '$label' at $2 of $1" 3 "bad n $fault $1[0].$2 $label $3" p n
  done
}

# Where a fault of a label is told, and which.
label_marks() {
  sed 's/^name = "tick"/name = "tock"/' driver.labels >n
  line 'a function whose name no object has' 3 'bad n name function[1].place tock 32:8' driver.plan n
  told 'a label as far as it may be' driver.plan 'range thunk[0].place 1:1' '[[thunk]] | place = "cell+4194303" | function = "main" | [[function]] | name = "main"'
  told 'a label in a comment' driver.plan 'name thunk[0].place cel 2:3' '[[thunk]] | # "cel" | place = "cel"'
  told 'a label in brackets' driver.plan 'name thunk[1].place cel 1:40' 'thunk = [{ place = "cell" }, { place = "cel" }]'
  told 'a label in brackets, spelled otherwise' driver.plan 'name thunk[0].place cel' 'thunk = [{ place = "c\u0065l" }]'
  told 'a fault in brackets without a label' driver.plan 'missing thunk[0].place' 'thunk = [{ function = "main" }]'
  told 'the first fault of labels' driver.plan 'name static[0].place stati 4:21' \
    'site = [{ place = "sit" }] | point = [{ place = "poin" }] | thunk = [{ place = "thun" }] | static = [{ place = "stati" }]'
  told 'a header with blanks' driver.plan 'kind function[1].enters 3:1' ' [[ function ]] | name = "main" | [[function]] | name = "tick" | enters = true'
  told 'a label behind a header with blanks' driver.plan 'name thunk[1].place cel 4:9' '[[ thunk ]] | place = "cell" | [["thunk"]] | place = "cel"'
  told 'a place before an end' driver.plan 'name function[0].place plac 4:9' '[[function]] | name = "main" | end = "en" | place = "plac"'
}

# The faults of notes: what is told, and an edit of the driver's.
note_faults() {
  local told edit
  while IFS='~' read -r told edit; do
    sed -E "$edit" driver.labels >n
    line "the fault of $edit" 3 "bad n $told" driver.plan n
  done <<'EDITS'
nottoml -~1s/^/= =\n/
nottoml -~s/^place = .*/&\n&/
range version~1s/^/version = 3\n/
kind bogus~1s/^/bogus = 1\n/
name entry~1s/^/entry = "nobody"\n/
missing thunk[0].function 21:1~/^function = /d
missing shape[1].size 10:1~12d
kind thunk[0].function 21:1~s/^function = .*/function = 5/
kind thunk[0].place 21:1~s/^place = .*/place = true/
kind function[1].enters 31:1~s/^name = "tick"/&\nenters = true/
twice function[1].name 31:1~s/^name = "tick"/name = "main"/
twice function[1].place 31:1~s/^name = "tick"/&\nplace = "main"/
name thunk[0].function 21:1~s/^function = .*/function = "tock"/
range function[1].params 31:1~s/int:0..4294967295/saved:1/
range function[1].end 31:1~s/^name = "tick"/&\nend = 4194305/
EDITS
  local open=$(printf '[%.0s' {1..80}) close=$(printf ']%.0s' {1..80})
  told 'values that nest 80 deep' driver.plan 'kind x' "x = $open$close"
  told 'values that nest 81 deep' driver.plan 'nottoml -' "x = [$open$close]"
}

# The files in their order, and the words.
files() {
  echo = >n
  line 'no word' 2 'usage: PLAN | PLAN NOTES'
  line 'three words' 2 'usage: PLAN | PLAN NOTES' driver.plan driver.labels driver.labels
  line 'no plan' 9 'missing absent' absent driver.labels
  line 'no notes' 9 'missing absent' driver.plan absent
  plan_of main gone.obj >p
  line 'no object' 9 'missing gone.obj' p absent
  echo 'objects = 5' >p
  line 'a bad plan' 3 'bad p kind objects' p absent
  line 'a bad plan, for the map' 3 'bad p kind objects' p
  line 'a plan that is no TOML' 3 'bad n nottoml -' n
  plan_of main a.obj e.obj >p && : >e.obj
  line 'a bad object' 3 'bad e.obj short 0' p absent
  head -c 1048577 /dev/zero >e.obj
  line 'a large object' 7 'large e.obj' p absent
  line 'a large plan' 7 'large e.obj' e.obj absent
  line 'large notes' 7 'large e.obj' driver.plan e.obj
  row 'a folder in the place of a plan' 4 "$room" </dev/null
  row 'a folder in the place of notes' 4 driver.plan "$room" </dev/null
  "$EBC_NOTES" driver.plan driver.labels >/dev/full 2>/dev/null
  [ $? = 5 ] || fail 'an output that is full'
}

# The faults of linking, which are told before those of notes.
links() {
  local copy
  not_linked 'a name that no object defines' 'undefined other' main a.obj
  not_linked 'an entry that is not global' 'entry part' part a.obj b.obj
  not_linked 'two of one name' 'twice main' main a.obj b.obj driver.obj
  source_of far '.global main | main: | JMP8 far | RET | .data | far: .dq 0'
  not_linked 'a distance too far' 'far 4097' main far.obj
  source_of small '.global main | main: | RET'
  source_of big '.data | .zero 1000000'
  for copy in 1 2 3 4 5; do cp big.obj "big$copy.obj"; done
  not_linked 'an image of 5 MB' 'size -' main small.obj big{1..5}.obj
}
not_linked() { plan_of "${@:3}" >p; line "$1" 3 "bad p $2" p n; }

# Refusals, with the label before the place and the state there.
refusals() {
  sed 's/"next 1 0 /"next 0 2 /' driver.labels >n
  line 'a shape whose fields overlap' 1 'refused 00000001 shape' driver.plan n
  sed 's/^name = "tick"/&\nend = 4169/' driver.labels >n
  line 'an odd end' 1 $'refused 00001044 function\nat tick' driver.plan n
  awk '/^\[\[/ { out = /static/ } !out' least.labels >n
  line 'no static object where MOVREL leads' 1 $'refused 0000100e address\nat main+14\nregs R7 thunk:0\nstack\nwritten\nmade 1' own.plan n
  sed 's/^name = "main"/&\nlevel = 0/' least.labels >n
  begins 'a level too small' 1 $'refused 00001014 level\nat main+20' own.plan n
  source_of grows '.global main | main: | MOVIqw R7, 0 | again: | PUSHn R7 | CMPI64weq R7, 0 | JMP8cs again | RET'
  plan_of main grows.obj >p
  lines '[[function]] | name = "main" | need = [9, 0]' >n
  begins 'ways of different stacks' 1 $'refused 00001004 below\nat again' p n
}

# ---- what is said

# The lines in a word, with bars between them.
split() { tr '|' '\n' <<<"$1"; }
# The last line of a refusal.
see_refusal() { printf '  see docs/LABELS.md, "A refusal", and docs/RULES.md, "The verdict", %s\n' "$1"; }

# Refusals of the driver's notes after an edit, of which all lines are said that `check` says.
said_refusals() {
  sed 's/"next 1 0 /"next 0 2 /' driver.labels >n
  said 'fields that overlap' driver.plan n < <(
    echo 'n: error: shape: where a pointer has 4 bytes, the fields count at (0, 0) and next at (0, 2) of Blk share a byte'
    echo 'n:13:1: note: the shape, shape[1].fields = ["count 0 0 i32", "next 0 2 ptr?:Blk"]'
    see_refusal shape)
  sed 's/^name = "tick"/&\nend = 4169/' driver.labels >n
  said 'an end that is odd' driver.plan n < <(
    echo 'n: 0x1044: error: function: tick ends at 0x1049, which is odd'
    echo 'n:33:1: note: the function, function[1].end = 4169'
    see_refusal function)
  sed 's/"n entry"/"n int:0..5"/' driver.labels >n
  said 'an argument of another type' driver.plan n < <(
    echo 'n: 0x1032: error: arguments: argument 0 is n entry, and n int:0..5 is wanted'
    split '  0x1032 CALL32EXa @R4(+1,+0)|  regs R4 ptr:Sys, R5 thunk:0, R6 int:0..4294967295, R7 status!p|  stack n entry, locals|  written p|  made 1'
    echo 'n:45:1: note: the parameters of the signature, signature[1].params = ["n int:0..5"]'
    see_refusal arguments)
  sed 's/^name = "main"/&\nneed = [1, 0]/' driver.labels >n
  said 'a need too small' driver.plan n < <(
    echo 'n: 0x1012: error: stack: this push makes the items (2, 0), and main has need (1, 0)'
    split '  0x1012 PUSHn R5|  regs R4 ptr:Sys, R5 local:p, R7 thunk:0|  stack locals|  written|  made 1'
    echo "n:27:1: note: the function's need, function[0].need = [1, 0]"
    see_refusal stack)
  { sed -n '1,24p; 31,35p' driver.labels; sed -n '25,30p; 36,$p' driver.labels | sed 's/^name = "main"/&\nneed = [1, 0]/'; } >n
  said 'a need too small, with functions in another order' driver.plan n < <(
    echo 'n: 0x1012: error: stack: this push makes the items (2, 0), and main has need (1, 0)'
    split '  0x1012 PUSHn R5|  regs R4 ptr:Sys, R5 local:p, R7 thunk:0|  stack locals|  written|  made 1'
    echo "n:32:1: note: the function's need, function[1].need = [1, 0]"
    see_refusal stack)
  sed '34s/status/int:1..5/' driver.labels >n
  said 'another result' driver.plan n < <(
    echo 'n: 0x1048: error: return: RET with int:0..0 in R7, and int:1..5 is wanted'
    split '  0x1048 RET|  regs R7 int:0..0|  stack|  written|  made 1'
    echo "n:34:1: note: the function's result, function[1].result = \"int:1..5\""
    see_refusal return)
  sed '21,23d' driver.labels >n
  said 'a thunk that the text lacks' driver.plan n < <(
    echo 'n: 0x1006: error: thunk: BREAK 5 makes a thunk, and all 0 of the notes are made'
    echo '  0x1006 BREAK 5'
    echo '  R7 is any since 0x1000 MOVRELd R7, 4090, where R7 is any; no static object and no thunk cell of the notes begins at 0x2000'
    split '  regs|  stack|  written|  made 0'
    see_refusal thunk)
}

# The same of the program that leaves all out.
said_left_out() {
  own_program && without '[a-z]+' >least.labels
  sed 's/^name = "main"/&\nlevel = 0/' least.labels >n
  said 'a level that is found, beside one too small' own.plan n < <(
    echo 'n: 0x1014: error: level: main has level 0 and calls half of level 0, and a lower one is wanted'
    split '  0x1014 CALL32 28|  regs R4 int:0..4294967295, R7 thunk:0|  stack q int:0..4294967295|  written|  made 1'
    echo 'n:12:1: note: the level of the function that is called, function[1].level, is left out; found: 0'
    see_refusal level)
  sed 's/^name = "tick"/&\nenter = false/' least.labels >n
  said 'enter false of what a thunk enters' own.plan n < <(
    echo 'n: 0x2010: error: static: the thunk cell enters tick, which has no enter = true'
    echo 'n:16:1: note: the function that it enters, function[2].name = "tick"'
    see_refusal static)
  awk '/^\[\[/ { if (t !~ /name = "half"/) printf "%s", t; t = "" } { t = t $0 "\n" } END { printf "%s", t }' least.labels >n
  said 'a function that the text lacks' own.plan n < <(
    echo 'n: 0x1014: error: target: the call goes to 0x1036, where no function of the notes begins'
    echo '  0x1014 CALL32 28'
    see_refusal target)
  { cat least.labels; table signature 'method = "Put" | name = "other" | params = ["n any"] | result = "none"'; } >n
  said 'two signatures that fit' own.plan n < <(
    echo 'n: 0x102a: error: site: Put is called here, at 0x102a, where the notes have no site; main has sites at: none'
    split '  0x102a CALL32EXa @R5|  a site is found where one signature alone of the method takes what lies on the stack; there are: put, other'
    split '  put takes what lies on the stack|  other takes what lies on the stack'
    see_refusal site)
  { sed '/^name = "put"/,/^result/s/n int:0..4294967295/n handle/' least.labels; table signature 'method = "Put" | name = "other" | params = ["n any", "n any"] | result = "none"'; } >n
  said 'two signatures of which none fits' own.plan n < <(
    echo 'n: 0x102a: error: site: Put is called here, at 0x102a, where the notes have no site; main has sites at: none'
    split '  0x102a CALL32EXa @R5|  a site is found where one signature alone of the method takes what lies on the stack; there are: put, other'
    split '  put: argument 0 is n int:1..2147483647, and n handle is wanted|  other: argument 1 is not there, and n any is wanted'
    see_refusal site)
  without site >n
  said 'no site beside a point' own.plan n < <(
    echo 'n: 0x102a: error: site: Put is called here, at 0x102a, where the notes have no site; main has sites at: none'
    split '  0x102a CALL32EXa @R5|  where the text has a point, all points and sites are its own'
    see_refusal site)
}

# Faults, each an edit of the driver's notes, the first line that is said, and more lines or a page of docs/NOTES.md.
said_faults() {
  local edit first more
  while IFS='~' read -r edit first more; do
    sed -E "$edit" driver.labels >n
    [[ $more == \"* ]] && more="  see docs/NOTES.md, $more"
    said "what is said of $edit" driver.plan n < <(echo "n$first" && split "$more")
  done <<'EDITS'
s/^name = "Blk"/name = "Blk/~:11:12: error: this is no TOML: invalid string~"The file" and "Texts"
s/^place = .*/&\n&/~:23:1: error: this is no TOML: duplicate key~"The file" and "Texts"
1s/^/bogus = 1\n/~:1:1: error: bogus is no key of this table~"The file" and "Texts"
/^function = /d~:21:1: error: thunk[0] has no key function; wanted: the name of a function, a text~"The file" and "Texts"
s/^function = .*/function = "tock"/~:23:12: error: thunk[0].function is "tock", which names a function that the notes don't have~  they have: main, tick|  see docs/NOTES.md, "The file" and "Texts"
s/ptr[?]:Blk/ptr?:Block/~:13:28: error: item 1 of shape[1].fields is "next 1 0 ptr?:Block", which names the shape Block that the notes don't have~  they have: Sys, Blk, L|  see docs/NOTES.md, "The file" and "Texts"
s/int:0..4294967295/saved:1/~:33:10: error: item 0 of function[1].params is "n saved:1"; wanted in a natural parameter: another type than saved:I, which MOVn doesn't keep~"The conditions"
s/^name = "tick"/&\nplace = "main"/~:33:9: error: function[1].place is the place of function[0], too~n:25:1: note: function[0]|  see docs/NOTES.md, "The conditions"
s/^place = "cell"/place = "cel"/~:22:9: error: thunk[0].place is "cel", and no object has a label cel~  near to it: cell|  see docs/LABELS.md, "Faults of labels"
s/^place = "cell"/place = "cell + 4"/~:22:9: error: thunk[0].place is "cell + 4"; wanted: LABEL or OBJECT:LABEL, and +N behind it with N from 0 to 4194303~  see docs/LABELS.md, "Faults of labels"
s/^place = "cell"/place = "drive.obj:cell"/~:22:9: error: thunk[0].place is "drive.obj:cell", and the plan names no object drive.obj~  it names: driver.obj|  see docs/LABELS.md, "Faults of labels"
s/^name = "tick"/name = "tock"/~:32:8: error: function[1].name is "tock", and no object has a label tock~  near to it: tick|  see docs/LABELS.md, "Faults of labels"
s/^name = "tick"/&\nend = "cell"/~:33:7: error: function[1].end is "cell", a label of the data; wanted: one of the code~  see docs/LABELS.md, "Faults of labels"
EDITS
}

# Faults of other plans.
said_elsewhere() {
  lines '[[function]] | name = "main"' '' '[[function]] | name = "part"' >n
  said 'what is said of a label that two objects have' two.plan n < <(
    echo 'n:5:8: error: function[1].name is "part", which several objects have; wanted: OBJECT:LABEL'
    split '  they are: a.obj:part, b.obj:part|  see docs/LABELS.md, "Faults of labels"')
  lines '[[function]] | name = "main" | [[function]] | name = "self"' >n
  said 'what is said of a function that calls itself' self.plan n < <(
    echo 'n:4:8: error: calls lead from self back to it, so no level fits; wanted: code in which none do'
    echo '  see docs/LABELS.md, "What is answered"')
  lines '[[function]] | name = "nowhere"' >n
  said 'what is said of a label that is far from all' self.plan n < <(
    echo 'n:2:8: error: function[0].name is "nowhere", and no object has a label nowhere'
    split '  labels: main, self|  see docs/LABELS.md, "Faults of labels"')
  local long
  long=$(printf 'x%.0s' {1..200})
  lines '[[thunk]]' "place = \"$long\"" >n
  said 'what is said of a label of 200 letters' self.plan n < <(
    echo "n:2:9: error: thunk[0].place is \"${long:0:100}..\"; wanted: LABEL or OBJECT:LABEL, and +N behind it with N from 0 to 4194303"
    echo '  see docs/LABELS.md, "Faults of labels"')
  { cat shapes; lines '[[static]] | place = "first+8" | shape = "N"'; } >n
  said 'what is said of a count of none' counts.plan n < <(
    echo 'n:3:1: error: static[0].count is left out, and not one instance fits between the label and the next one, or the label is one of the code'
    echo '  see docs/LABELS.md, "What may be left out"')
  said 'what is said of a need past the greatest' need116496.plan n116496 < <(
    echo 'n116496:2:1: error: function[0].need is left out, and what the code takes is too much: nine frames take more than 1048576 bytes where a pointer has 8'
    echo '  see docs/LABELS.md, "What may be left out"')
}

# ---- large

large_sample() { sample 4096; }

# A function that calls 4,095 others.
flat() {
  awk 'BEGIN { print ".global main\nmain:"; for (k = 1; k < 4096; k++) print "CALL32 f" k; print "RET"
    for (k = 1; k < 4096; k++) print "f" k ":\nRET" }' >flat.asm
  assemble flat
  plan_of main flat.obj >flat.plan
  awk 'BEGIN { print "[[function]]\nname = \"main\""; for (k = 1; k < 4096; k++) printf "[[function]]\nname = \"f%d\"\n", k }' >n
  row 'a function that calls 4,095 others' 0 flat.plan n < <(
    head_of main
    function_of main 4096 28668 1 '[0, 16]' any
    awk 'BEGIN { for (k = 1; k < 4096; k++) { p = 28666 + 2 * k
      printf "\n[[function]]\nend = %d\nlevel = 0\nname = \"f%d\"\nneed = [0, 0]\nplace = %d\nresult = \"any\"\n", p + 2, k, p } }')
  lines '[[function]] | name = "g" | place = "f1"' >>n
  line '4,097 functions' 3 'bad n range function' flat.plan n
}

# As many points as complete notes of 1 MiB have, in 1,048,516 bytes, one more, and more than notes of version 1 may have.
points() {
  local most=15461
  lines '[[function]] | name = "main"' >n
  plan_of main jumps.obj >jumps.plan
  jumps $most
  row "$most points" 0 jumps.plan n < <(pointed $most)
  jumps $((most + 1))
  line "$((most + 1)) points" 7 'large n' jumps.plan n
  jumps 16385
  line '16,385 points' 7 'large n' jumps.plan n
}
# A function of so many jumps, each to the next instruction, and its complete notes.
jumps() { { lines '.global main | main:'; yes 'JMP8cs 0' | head -n "$1"; echo RET; } >jumps.asm; assemble jumps; }
pointed() {
  head_of main
  function_of main 4096 $((4098 + 2 * $1)) 0 '[0, 0]' any
  awk -v n="$1" 'BEGIN { for (k = 1; k <= n; k++) printf "\n[[point]]\nmade = 0\nplace = %d\nregs = []\nstack = []\nwritten = []\n", 4096 + 2 * k }'
}

# A text of 1 MiB, and of one byte more.
long_text() {
  { cat driver.labels; printf '#'; yes x | tr -d '\n' | head -c 1048576; } | head -c 1048576 >n
  row 'a text of 1 MiB' 0 driver.plan n <"$top/examples/driver/driver.notes"
  printf x >>n
  line 'a text of 1 MiB and a byte' 7 'large n' driver.plan n
}

quick='examples small_sample two_objects counts left_out written order signatures needs greatest_need recursion label_faults label_marks'
quick+=' note_faults files links refusals said_refusals said_left_out said_faults said_elsewhere'
large='large_sample flat points long_text'
case ${1:-} in
  '') set -- $quick ;;
  large) set -- driver $large ;;
  all) set -- $quick $large ;;
esac
for rows in "$@"; do "$rows"; done
exit "$failed"
