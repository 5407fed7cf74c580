#!/usr/bin/env bash
# Runs images on real firmware, as they stand in the tree: OVMF, which is EDK2 built for QEMU's machines, for IA32 and for X64. Where
# EBC_DXE names a file it also runs them on AAVMF, which is EDK2 for AArch64. Debian builds that without the interpreter of EBC, so the
# shell loads the interpreter first: EBC_DXE is what scripts/ebc_dxe.sh makes.
#
#     bash scripts/firmware.sh                   the drivers of examples/uefi, and the card's from its option ROM
#     bash scripts/firmware.sh apart             the programs of examples/apart, which do another thing on each firmware
#     bash scripts/firmware.sh disk              the driver of examples/disk, on cards whose memory is a disk: scripts/disk.sh
#     bash scripts/firmware.sh signed            signed and unsigned images of examples/uefi with Secure Boot: scripts/signed.sh
#     bash scripts/firmware.sh FOLDER NAME..     your own images, FOLDER/NAME.efi: what each shows, and its status
#
# Status 0: the consoles are as the files *.console of that folder have it; of your own images, each firmware shows the same. Status 1:
# they aren't, and how they differ is shown. Status 2: the words are others. Status 3: something isn't there, and is named. A boot has
# LIMIT seconds, 300 if that isn't set. WIDTHS are those that are booted, of ia32, x64 and aarch64.
set -u
top=$(CDPATH='' cd -- "$(dirname -- "${BASH_SOURCE[0]}")/.." && pwd -P) || exit 1
. "$top/scripts/boot.sh"
usage() { echo 'usage: firmware.sh [uefi | apart | disk | signed | FOLDER NAME..]'; exit 2; }
apps='hello loop locate layout event services'
apart='status pool blank boolean frame popn divide'
kind=${1:-uefi}
[ $# -lt 2 ] || kind=own
case $kind in
  uefi) names=$apps folder=$top/examples/uefi lines='/^card: /p; /^BEGIN /,/^END /p' ;;
  apart) names=$apart folder=$top/examples/apart lines='s/^END //p; s/^!!!! \(.* Exception Type - .*)\) .*/\1/p' ;;
  disk) folder=$top/examples/disk ;;
  signed) WIDTHS='ia32 x64' ;;
  own)
    folder=$(realpath -- "$1") && shift || usage
    names=$* lines='/^BEGIN /,/^END /p'
    for name in "$@"; do
      [[ $name =~ ^[A-Za-z0-9_-]+$ && -f $folder/$name.efi ]] || { echo "firmware.sh: $folder/$name.efi is no image" >&2; exit 2; }
    done ;;
  *) usage ;;
esac
[ -z "${EBC_DXE:-}" ] || EBC_DXE=$(realpath -m -- "$EBC_DXE")
[ -z "${EBC:-}" ] || EBC=$(realpath -m -- "$EBC")
[ "${WIDTHS:-}" ] || [ "${EBC_DXE:-}" ] ||
  echo "firmware.sh: aarch64 is left out, since EBC_DXE is not set: 'bash scripts/ebc_dxe.sh' makes what it is to name" >&2
widths=${WIDTHS:-ia32 x64${EBC_DXE:+ aarch64}}
for width in $widths; do
  case $width in ia32 | x64 | aarch64) needs_firmware "$width" ;; *) usage ;; esac
done
case $kind in
  disk) needs mtools /usr/bin/mcopy ;;
  signed)
    needs openssl /usr/bin/openssl
    needs osslsigncode /usr/bin/osslsigncode
    needs efitools /usr/bin/flash-var
    [ -x "${EBC:-$top/bin/ebc}" ] || { echo "firmware.sh: EBC names no program: '${EBC:-$top/bin/ebc}'" >&2; absent=1; } ;;
esac
[ "$absent" = 0 ] || exit 3
enter_room
status=0
if [ "$kind" = disk ] || [ "$kind" = signed ]; then
  . "$top/scripts/$kind.sh"
  "try_$kind"
  exit "$status"
fi

# Whether what a program does on a firmware isn't fixed: what the pool of AArch64 holds isn't.
not_fixed() { [[ $kind.$1.$2 =~ ^apart.aarch64.(pool|blank)$ ]]; }

# A disk on which the shell of the firmware finds the images and runs them in turn, and then switches the machine off. On AArch64 it loads
# the interpreter first, and the card's ROM from the disk: the ROM on the card was sought before the interpreter was there.
disk() {
  local name
  mkdir "$1" || return 1
  {
    printf '@echo -off\nfs0:\n'
    if [ "$1" = aarch64 ]; then
      cp "$EBC_DXE" "$1/EbcDxe.efi" && printf 'load EbcDxe.efi\n' || return 1
      [ "$kind" != uefi ] || { cp card.rom "$1" && printf 'loadpcirom card.rom\n'; } || return 1
    fi
    for name in $names; do
      not_fixed "$1" "$name" && continue
      cp "$folder/$name.efi" "$1" || return 1
      printf 'echo BEGIN %s\n%s.efi\necho END %s %%lasterror%%\n' "$name" "$name" "$name"
    done
    printf 'reset -s\n'
  } | sed 's/$/\r/' >"$1/startup.nsh"
}

# Boots the firmware of a width with that disk.
run() {
  local bus=ide card=()
  choose "$1"
  [ "$1" != aarch64 ] || bus=virtio
  if [ "$kind" = uefi ]; then
    cp "$folder/card.rom" . || return 1
    card=(-device e1000,romfile=card.rom)
    [ "$1" != aarch64 ] || card=(-device e1000,romfile=)
  fi
  cp "$variables" variables && disk "$1" || return 1
  boot "$1" "$stopped" "${card[@]}" -drive "file=fat:rw:$1,format=raw,if=$bus"
  sed -n "$lines" console >"$1.shown"
}

# The lines of a console that are to be there: of your own images, those that the first firmware showed.
expected() {
  local name
  case $kind in
    apart) cat "$folder/$1.console" ;;
    own) cat "${widths%% *}.shown" ;;
    uefi)
      cat "$folder/card.console"
      for name in $names; do
        echo "BEGIN $name"
        cat "$folder/$name.console"
        echo "END $name 0x0"
      done ;;
  esac
}

for width in $widths; do
  run "$width" || exit 1
  if [ "$kind.$width" = "own.${widths%% *}" ]; then
    cat "$width.shown"
    echo "$width: shown"
  elif diff <(expected "$width") "$width.shown"; then
    [ "$kind" = own ] && echo "$width: the same" || echo "$width: as expected"
  else
    [ "$kind" = own ] && echo "$width: not the same" || echo "$width: not as expected"
    cat said >&2
    status=1
  fi
done
exit "$status"
