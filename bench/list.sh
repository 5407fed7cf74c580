#!/usr/bin/env bash
# Times `ebc list` on images of up to 16,000 small sections, each with six relocations, whose targets are spread over all of the sections.
# shellcheck source=bench/lib.sh
. "$(dirname -- "${BASH_SOURCE[0]}")/lib.sh"
need python3
ebc=$(program ebc)

inputs() {
  python "$1" <<'PYTHON'
import sys
from inputs import *

count, size = int(sys.argv[1]), 48
place = lambda section: 0x1000 + size * section
addresses = [0x10000 + place((7919 * k) % count) for k in range(6 * count)]
sections = [(b'.data', place(k), b''.join(map(u64, addresses[6 * k:6 * k + 6])), DATA) for k in range(count)]
relocs = blocks([0x1000 + 8 * k for k in range(6 * count)])
write('code.efi', image([*sections, (b'.reloc', place(count), relocs, DATA)], (place(count), len(relocs)), align=16, unit=16))
PYTHON
  units=$(wc -c <code.efi)
}
right() { "$ebc" list code.efi >/dev/null; }

cp "$top/examples/driver/driver.efi" small.efi
ours=("$ebc" list code.efi) ours_start=("$ebc" list small.efi)
series 'list, small sections' bytes 1000
