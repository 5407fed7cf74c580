#!/usr/bin/env bash
# Times `ebc run` at both widths on an image whose code is the loop of crates/machine_bench, and that loop on the machine alone. The loop
# ends by itself after the steps, so the run finishes.
# shellcheck source=bench/lib.sh
. "$(dirname -- "${BASH_SOURCE[0]}")/lib.sh"
need python3
ebc=$(program ebc)
machine=$(program machine_bench)

# R2 is 1, R3 the place of the data, and R5 how many rounds of six instructions there are.
code() {
  python "$@" <<'PYTHON'
import sys
from inputs import *

rounds, name = int(sys.argv[1]), sys.argv[2]
begin = b'\x77\x32' + u16(1) + b'\xB9\x03' + u32(0x100 - 10) + b'\xB7\x35' + u32(rounds)
loop = b'\x4C\x21\x20\xB4\x4C\x14\x20\x4B\x45\x51\x82\xFA'
code = begin + loop + b'\x04\x00'
write(f'{name}.efi', code_image(code.ljust(0x200, b'\0'), 0xE0000020))
write(f'{name}.notes', ['version = 1', 'entry = "main"', *function('main', 0x1000, 0x1000 + len(code))])
PYTHON
}
inputs() {
  code $(($1 / 6)) code
  units=$1 peer=("$machine" "$width" "$1")
}
right() { case $("$ebc" run "$width" code.efi code.notes code.script 10000000) in *' gate finished any') ;; *) false ;; esac; }

echo 'version = 1' >code.script
code 1 small
for width in 32 64; do
  ours=("$ebc" run "$width" code.efi code.notes code.script 10000000)
  ours_start=("$ebc" run "$width" small.efi small.notes code.script 10000000) peer_start=("$machine" "$width" 1)
  series "run, width $width" steps 624900 'the machine alone'
done
