# Runs the driver of examples/disk from its option ROM, on two cards of shared memory, whose memory is a file with a FAT file system. Read
# by firmware.sh.
#
# The firmware's own drivers find the file systems on the disks that the driver shows, and the shell works there. On the first disk the file
# system begins at the first block, and on the second it lies in a partition. In between the driver is stopped and started. Afterwards
# the disks are looked at by mtools. On AArch64 a disk of QEMU's has the interpreter and the ROM, which the shell loads first.

make_files() {
  printf 'A line of a file on the disk.\r\n' >line.txt
  seq 1 400000 | head -c 2500000 >large.txt
  cp "$folder/disk.rom" "$folder/probe.efi" "$top/examples/uefi/hello.efi" .
}

# What the shell is to do: fs0 and fs1 are its names of both disks. The firmware's own words on what it connects stand between the parts.
orders() {
  printf '@echo -off\nfs0:\necho BEGIN probe\nprobe.efi\necho END probe %%lasterror%%\n'
  printf 'echo BEGIN files\ntype line.txt\ncp -q large.txt copy.txt\ncomp large.txt copy.txt\necho written > note.txt\ntype note.txt\n'
  printf 'echo END files %%lasterror%%\n'
  printf 'echo BEGIN second\nfs1:\\hello.efi\ncp -q large.txt fs1:\\copy.txt\ncomp large.txt fs1:\\copy.txt\n'
  printf 'echo END second %%lasterror%%\nreconnect -r\nmap -r\nfs0:\n'
  printf 'echo BEGIN again\nprobe.efi\ncomp copy.txt fs1:\\copy.txt\necho END again %%lasterror%%\nreset -s\n'
}

# Both disks, 16 MiB each: the second has a partition of type 0e, of 30720 blocks from block 2048 on.
make_disks() {
  rm -f first second && truncate -s 16M first second &&
    printf '\0\376\377\377\016\376\377\377\0\010\0\0\0\170\0\0' | dd of=second bs=1 seek=446 conv=notrunc status=none &&
    printf '\125\252' | dd of=second bs=1 seek=510 conv=notrunc status=none &&
    mformat -i first -T 32768 -h 16 -s 63 -v FIRST :: && mformat -i second@@1M -T 30720 -h 16 -s 63 -H 2048 -v SECOND :: &&
    mcopy -i first line.txt large.txt probe.efi :: && mcopy -i second@@1M hello.efi ::
}

# Boots the firmware of a width with both cards, of which the first has the ROM.
run_disk() {
  local width=$1 rom=disk.rom tools=()
  choose "$width"
  cp "$variables" variables && make_disks || return 1
  if [ "$width" = aarch64 ]; then
    rom=
    rm -rf tools && mkdir tools && cp disk.rom tools && cp "$EBC_DXE" tools/EbcDxe.efi || return 1
    printf '@echo -off\nfs0:\nload EbcDxe.efi\nloadpcirom disk.rom\nconnect -r\nmap -r\nfs0:\norders.nsh\n' |
      sed 's/$/\r/' >tools/startup.nsh
    orders | sed 's/$/\r/' | mcopy -i first - ::orders.nsh || return 1
    tools=(-drive file=fat:rw:tools,format=raw,if=virtio)
  else
    orders | sed 's/$/\r/' | mcopy -i first - ::startup.nsh || return 1
  fi
  boot "$width" "$stopped" "${tools[@]}" \
    -object memory-backend-file,id=first,share=on,mem-path=first,size=16M -device "ivshmem-plain,memdev=first,romfile=$rom" \
    -object memory-backend-file,id=second,share=on,mem-path=second,size=16M -device ivshmem-plain,memdev=second,romfile=
  sed -n '/^BEGIN /,/^END /p' console >shown
}

# Whether the disks have what the shell wrote there.
have_files() {
  local disk
  for disk in first second@@1M; do
    rm -f copy.txt
    mcopy -n -i "$disk" ::copy.txt copy.txt && cmp large.txt copy.txt || return 1
  done
  [ "$(mcopy -n -i first ::note.txt - | tr -dc a-z)" = written ]
}

try_disk() {
  local width
  make_files || exit 1
  for width in $widths; do
    run_disk "$width" || exit 1
    if diff "$folder/disk.console" shown && have_files; then
      echo "$width: as expected"
    else
      echo "$width: not as expected"
      cat said >&2
      status=1
    fi
  done
}
