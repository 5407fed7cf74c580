#!/usr/bin/env bash
# Times what is refused beside the same work where it goes well, to show what the words on standard error cost: functions that each call the
# next, refused at the last one, with up to 475 KB of notes; the same notes with an unknown key at their end, or a line that is no TOML, beside
# reading them alone; and sources of up to 1 MiB whose last line is wrong. EBC_BEFORE may name a program without these words. Then the peer is
# that program with the same words, and a last series has what goes well by both.
#
# A refusal is to take at most twice its peer. By callgrind, at 475 KB of notes, it is 1.97 times as many instructions at the last function, 1.78
# at the unknown key, 1.53 at the line that is no TOML, and 1.07 at a source of 1 MiB. What is said takes 49, 49, 47 and 7 of a hundred of each.
# Most of that is a second reading of the notes. That of a text that is no TOML reads its tables one by one, and stops at the first that is none.
# shellcheck source=bench/lib.sh
. "$(dirname -- "${BASH_SOURCE[0]}")/lib.sh"
need python3
ebc=$(program ebc)
before=${EBC_BEFORE:+$(realpath -e -- "$EBC_BEFORE")}

# Functions, well.efi and well.notes; in wrong.efi the last one gives another number, in wrong.notes it has a key that is none, and torn.notes
# ends with a line that is no TOML.
functions() {
  python "$1" "$2" <<'PYTHON'
import sys
from inputs import *

code, notes = calls(int(sys.argv[1]), 1)
under = sys.argv[2]
write(f'{under}/well.efi', code_image(code))
write(f'{under}/wrong.efi', code_image(code[:-4] + u16(9999) + code[-2:]))
write(f'{under}/well.notes', notes)
write(f'{under}/wrong.notes', [*notes, 'lever = 1'])
write(f'{under}/torn.notes', [*notes, 'lever = = 1'])
PYTHON
  units=$(wc -c <"$2/well.notes")
}
# A source of so many bytes, well.asm; in wrong.asm the last line has an index of two signs.
source_of() {
  yes '  MOVqw R2, @R0(+1,+16)' | head -n $(($1 / 24)) >"$2/well.asm" || true
  { head -n -1 "$2/well.asm" && echo '  MOVqw R2, @R0(+1,-16)'; } >"$2/wrong.asm"
  units=$(wc -c <"$2/well.asm")
}

# Rows of words that end with a status, beside those that go well: what it is, its unit and its first size, the status, what the peer is,
# and both words, in which %s is the folder.
beside() {
  local words others
  read -ra words <<<"$6"
  read -ra others <<<"$7"
  status=$4
  ours=("$ebc" "${words[@]/\%s/large}") ours_start=("$ebc" "${words[@]/\%s/small}")
  peer=("$ebc" "${others[@]/\%s/large}") peer_start=("$ebc" "${others[@]/\%s/small}")
  if [ -n "$before" ]; then
    peer=("$before" "${ours[@]:1}") peer_start=("$before" "${ours_start[@]:1}")
    series "$1" "$2" "$3" 'the same without words'
  else
    series "$1" "$2" "$3" "$5"
  fi
}
right() {
  local found=0
  "${ours[@]}" >/dev/null 2>&1 || found=$?
  [ "$found" = "$status" ]
}

mkdir small large
functions 1 small
source_of 24 small
inputs() { functions "$1" large; }
beside 'refused at the last function' 'bytes of notes' 256 1 'check of what goes well' 'check %s/wrong.efi %s/well.notes' 'check %s/well.efi %s/well.notes'
beside 'an unknown key at the end' 'bytes of notes' 256 3 'reading what goes well' 'check %s/well.efi %s/wrong.notes' 'run 32 %s/well.efi %s/well.notes none 1'
beside 'no TOML at the end' 'bytes of notes' 256 3 'reading what goes well' 'check %s/well.efi %s/torn.notes' 'run 32 %s/well.efi %s/well.notes none 1'
[ -z "$before" ] || beside 'what goes well' 'bytes of notes' 256 0 '' 'check %s/well.efi %s/well.notes' ''
inputs() { source_of "$1" large; }
beside 'a source whose last line is wrong' bytes 65536 3 'asm of what goes well' 'asm %s/wrong.asm %s/wrong.obj' 'asm %s/well.asm %s/well.obj'
[ -z "$before" ] || beside 'a source that goes well' bytes 65536 0 '' 'asm %s/well.asm %s/well.obj' ''
