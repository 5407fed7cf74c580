#!/usr/bin/env bash
# Times the reader of notes on texts of up to 2,048 functions, each with a static object, a thunk, two points and a site. They are read for
# `ebc run` without its script, where the command stops. Beside it stands toml++ (Debian's package libtomlplusplus-dev), if it is there,
# which parses the same text and sees to nothing else.
# shellcheck source=bench/lib.sh
. "$(dirname -- "${BASH_SOURCE[0]}")/lib.sh"
need python3
ebc=$(program ebc)

inputs() {
  python "$1" <<'PYTHON'
import sys
from inputs import *

lines = ['version = 1', 'entry = "f0"', '[[shape]]', 'name = "Counter"', 'size = [1, 0]', 'fields = ["value 0 0 n"]',
         '[[signature]]', 'name = "call"', 'method = "Call"', 'params = ["n int:0..255"]', 'result = "status"']
for k in range(int(sys.argv[1])):
    place = 8 * k
    lines += ['[[static]]', f'place = {0x100000 + place}', 'shape = "Counter"', 'count = 1',
              '[[thunk]]', f'place = {0x200000 + place}', f'function = "f{k}"',
              *function(f'f{k}', place, place + 8, 0, 8, 'int:0..255'), 'params = ["n int:0..255"]']
    for point in place, place + 4:
        lines += ['[[point]]', f'place = {point}', 'stack = ["n any"]', 'written = []', 'made = 0',
                  'regs = ["R4 int:0..255", "R6 handle", "R7 int:0..255"]']
    lines += ['[[site]]', f'place = {place + 4}', 'signature = "call"']
write('code.notes', lines)
PYTHON
  units=$(wc -c <code.notes)
}
right() { [ "$("$ebc" run 32 small.efi code.notes none 1 2>/dev/null)" = 'missing none' ]; }

cp "$top/examples/driver/driver.efi" small.efi
inputs 1
cp code.notes small.notes
ours=("$ebc" run 32 small.efi code.notes none 1) ours_start=("$ebc" run 32 small.efi small.notes none 1)
parser=
cat >parse.cc <<'CC'
#include <toml++/toml.h>

int main(int, char **words) { return toml::parse_file(words[1]).size() ? 0 : 1; }
CC
if c++ -std=c++17 -O2 parse.cc -o parse 2>/dev/null; then
  parser='toml++, parsing' peer=(./parse code.notes) peer_start=(./parse small.notes)
fi
series 'reading notes' bytes 128 "$parser"
