# Puts numbers in place of the names in braces that a script has for its objects.
#
#     awk -f numbers.awk NAME.labels NAME.script uefi.script >NAME.run
#
# Typed objects are numbered from 0: the static objects of the notes, then the tables `object`, then those that calls make
# (docs/SCRIPTS.md, "Texts"). A static object has its label as its name, and another one the word behind the `#` of its line:
# `[[object]]  # SystemTable`. The first file is the notes, with each static object in a table [[static]] of its own.
FNR == 1 { file++ }
file == 1 && /^\[\[/ { static = $1 == "[[static]]" }
file == 1 && static && /^ *place *=/ { split($0, quoted, "\""); named(quoted[2]) }
file == 1 { next }
$1 == "[[object]]" { object[++objects] = $3 }
$1 == "[[call.make]]" { made[++makes] = $3 }
{ line[++lines] = $0 }
END {
  for (i = 1; i <= objects; i++) named(object[i])
  for (i = 1; i <= makes; i++) named(made[i])
  for (i = 1; i <= lines && !failed; i++) print numbered(line[i])
  exit failed
}

function named(name) {
  if (name != "" && name in number) fail("two objects are named " name)
  number[name] = count++
}

function numbered(text,  name) {
  while (match(text, /[{][A-Za-z_][A-Za-z_0-9]*[}]/)) {
    name = substr(text, RSTART + 1, RLENGTH - 2)
    if (!(name in number)) fail("no object is named " name)
    text = substr(text, 1, RSTART - 1) number[name] substr(text, RSTART + RLENGTH)
  }
  return text
}

function fail(what) {
  print "numbers.awk: " what | "cat >&2"
  failed = 1
}
