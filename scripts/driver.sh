#!/usr/bin/env bash
# Makes examples/driver/driver.efi, the image of the driver whose notes stand beside it. A line below has an offset in the
# file, the bytes that stand there, and what they are; all other bytes of its 1,536 are zeros. docs/IMAGES.md has the layout.
set -eu
top=$(CDPATH='' cd -- "$(dirname -- "${BASH_SOURCE[0]}")/.." && pwd -P)
image=${1:-$top/examples/driver/driver.efi}

bytes='
0    4D 5A                    # the mark MZ
60   40 00 00 00              # the signature stands at 64
64   50 45 00 00              # the signature
68   BC 0E                    # Machine: EFI Byte Code
70   02 00                    # two sections
84   F0 00                    # the size of the optional header
86   22 00                    # Characteristics
88   0B 02                    # Magic: PE32+
104  00 10 00 00              # the entry point: place 1000
112  00 00 01 00 00 00 00 00  # ImageBase: 10000
120  00 10 00 00              # SectionAlignment
124  00 02 00 00              # FileAlignment
144  00 30 00 00              # SizeOfImage
148  00 02 00 00              # SizeOfHeaders
156  0B 00                    # Subsystem: a boot service driver
196  10 00 00 00              # sixteen directories
328  2E 74 65 78 74 00 00 00  # .text
336  4A 00 00 00 00 10 00 00  # 74 bytes from place 1000
344  00 02 00 00 00 02 00 00  # 512 bytes of the file from offset 512
364  20 00 00 60              # code that is read and run
368  2E 64 61 74 61 00 00 00  # .data
376  08 00 00 00 00 20 00 00  # 8 bytes from place 2000
384  00 02 00 00 00 04 00 00  # 512 bytes of the file from offset 1024
404  40 00 00 C0              # data that is read and written
512  B9 07 FA 0F 00 00        # 1000 main: MOVRELd R7, 0xFFA, the thunk cell at 2000
518  00 05                    # 1006 BREAK 5, which makes the thunk of tick
520  72 84 41 10              # 1008 MOVnw R4, @R0(+1,+16), the table of methods
524  60 00 01 90              # 100c MOVqw R0, R0(-1,-0), which makes room for the locals
528  20 05                    # 1010 MOVqw R5, R0, the address of p
530  35 05                    # 1012 PUSHn R5
532  03 2C                    # 1014 CALL32EXa @R4, Locate
534  60 00 01 10              # 1016 MOVqw R0, R0(+1,+0), which drops the argument
538  25 75                    # 101a MOVsnw R5, R7, the status with its sign
540  6E 05 FF FF              # 101c CMPI64wlte R5, -1
544  C2 0E                    # 1020 JMP8cs 103e, where it is an error
546  32 85                    # 1022 MOVnw R5, @R0, the block
548  1F D6                    # 1024 MOVdw R6, @R5, its count
550  B9 05 D4 0F 00 00        # 1026 MOVRELd R5, 0xFD4, the thunk cell
556  35 0D                    # 102c PUSHn @R5, the thunk
558  72 84 43 10              # 102e MOVnw R4, @R0(+3,+16), the table of methods
562  83 2C 01 00 00 10        # 1032 CALL32EXa @R4(+1,+0), Register
568  60 00 02 10              # 1038 MOVqw R0, R0(+2,+0), which drops the argument and the locals
572  04 00                    # 103c RET
574  60 00 01 10              # 103e MOVqw R0, R0(+1,+0), which drops the locals
578  04 00                    # 1042 RET
580  77 37 00 00              # 1044 tick: MOVIqw R7, 0
584  04 00                    # 1048 RET
1024 40 F0 FF FF 00 00 00 00  # 2000 the thunk cell: tick less 2004
'

head -c 1536 /dev/zero >"$image"
while read -r offset rest; do
  [ -n "$offset" ] || continue
  hex=${rest%%#*}
  # shellcheck disable=SC2059
  printf "$(printf '\\x%s' $hex)" | dd of="$image" bs=1 seek="$offset" conv=notrunc status=none
done <<<"$bytes"
