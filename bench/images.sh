#!/usr/bin/env bash
# Times the reader of images on files of up to nearly 4 MiB with 100,000 relocations beside a program that reads the file in pieces of
# 4 KiB and copies it once. The image is read for `ebc check IMAGE NOTES` without its notes, where the command stops.
# shellcheck source=bench/lib.sh
. "$(dirname -- "${BASH_SOURCE[0]}")/lib.sh"
need python3 cc
ebc=$(program ebc)

cat >copy.c <<'C'
#include <stdio.h>
#include <stdlib.h>
#include <string.h>

int main(int count, char **words) {
    FILE *file = count == 2 ? fopen(words[1], "rb") : NULL;
    char *bytes = NULL, piece[4096];
    size_t room = 0, length = 0, more;
    if (!file) return 1;
    setvbuf(file, NULL, _IONBF, 0);
    while ((more = fread(piece, 1, sizeof piece, file))) {
        if (room < length + more) bytes = realloc(bytes, room = 2 * room + sizeof piece);
        if (!bytes) return 1;
        memcpy(bytes + length, piece, more);
        length += more;
    }
    char *copied = malloc(length + 1);
    if (!copied) return 1;
    memcpy(copied, bytes, length);
    return length && copied[length - 1] == 'x';
}
C
cc -O2 -fno-builtin copy.c -o copy
cp "$top/examples/driver/driver.efi" small.efi

# Pages of code of zeros, each with a relocation at every 32 bytes of its first 3,328.
inputs() {
  python "$1" <<'PYTHON'
import sys
from inputs import *

pages = int(sys.argv[1])
relocs = blocks([0x1000 * (page + 1) + 32 * k for page in range(pages) for k in range(104)])
place = 0x1000 * (pages + 1)
write('large.efi', image([(b'.text', 0x1000, bytes(0x1000 * pages), CODE), (b'.reloc', place, relocs, DATA)], (place, len(relocs))))
PYTHON
  units=$(wc -c <large.efi)
}
right() { [ "$("$ebc" check large.efi none 2>/dev/null)" = 'missing none' ] && ./copy large.efi; }

ours=("$ebc" check large.efi none) ours_start=("$ebc" check small.efi none)
peer=(./copy large.efi) peer_start=(./copy small.efi)
series 'reading an image' bytes 60 'reading and copying'
