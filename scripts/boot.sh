# Boots EDK2's firmware in a machine of QEMU's. Read by firmware.sh and its parts.
#
# All works in a folder of its own, `room`, by names without a path: a comma in a path would end an option of QEMU's. A boot has LIMIT
# seconds, 300 if that isn't set.
limit=${LIMIT:-300}
absent=0
machine=''

# Whether what one of Debian's packages brings is there.
needs() {
  [ -e "$2" ] && return
  echo "firmware.sh: $2 is not there, of Debian's package $1: install it by 'apt-get install $1'" >&2
  absent=1
}

# What the firmware of a width takes.
needs_firmware() {
  case $1 in
    ia32) needs qemu-system-x86 /usr/bin/qemu-system-x86_64 && needs ovmf-ia32 /usr/share/OVMF/OVMF32_CODE_4M.secboot.fd ;;
    x64) needs qemu-system-x86 /usr/bin/qemu-system-x86_64 && needs ovmf /usr/share/OVMF/OVMF_CODE_4M.fd ;;
    aarch64)
      needs qemu-system-arm /usr/bin/qemu-system-aarch64 && needs qemu-efi-aarch64 /usr/share/AAVMF/AAVMF_CODE.fd
      [ -f "${EBC_DXE:-}" ] && return
      echo "firmware.sh: EBC_DXE names no file: '${EBC_DXE:-}'; 'bash scripts/ebc_dxe.sh' makes it" >&2
      absent=1 ;;
  esac
}

# Makes the room, which goes away with the script.
enter_room() {
  room=$(mktemp -d) && cd "$room" || exit 1
  trap leave_room EXIT
  trap 'exit 1' HUP INT TERM
}
leave_room() {
  [ -z "$machine" ] || kill "$machine" 2>/dev/null
  wait
  cd / && rm -rf "$room"
}

# The machine of a width: its program, its options, its firmware and the firmware's variables, as Debian has them. For X64 that is the build
# without Secure Boot, or by a second word the one with it.
choose() {
  program=qemu-system-x86_64
  board=(-machine q35,smm=on -global driver=cfi.pflash01,property=secure,value=on -global ICH9-LPC.disable_s3=1)
  case $1${2:-} in
    ia32*) code=/usr/share/OVMF/OVMF32_CODE_4M.secboot.fd variables=/usr/share/OVMF/OVMF32_VARS_4M.fd ;;
    x64secure) code=/usr/share/OVMF/OVMF_CODE_4M.secboot.fd variables=/usr/share/OVMF/OVMF_VARS_4M.fd ;;
    x64)
      code=/usr/share/OVMF/OVMF_CODE_4M.fd variables=/usr/share/OVMF/OVMF_VARS_4M.fd
      board=(-machine q35,smm=off -global ICH9-LPC.disable_s3=1) ;;
    aarch64)
      code=/usr/share/AAVMF/AAVMF_CODE.fd variables=/usr/share/AAVMF/AAVMF_VARS.fd program=qemu-system-aarch64
      board=(-machine virt -cpu cortex-a57 -device ramfb) ;;
  esac
}

# boot WIDTH END OPTION..: boots the machine that was chosen, with the file `variables`. What its console shows goes into the file
# `console`, without control codes. A machine that doesn't switch itself off is switched off once a line of the console fits END.
boot() {
  local width=$1 end=$2 until=$((SECONDS + limit))
  shift 2
  rm -f serial console
  "$program" "${board[@]}" -accel tcg -m 256 -display none -monitor none -boot menu=off -nic none -serial file:serial \
    -drive "if=pflash,format=raw,unit=0,readonly=on,file=$code" -drive if=pflash,format=raw,unit=1,file=variables "$@" \
    </dev/null >said 2>&1 &
  machine=$!
  while kill -0 "$machine" 2>/dev/null; do
    ((SECONDS < until)) || { echo "firmware.sh: $width isn't done after $limit seconds" >&2; break; }
    [ -e serial ] && tr -d '\000\r' <serial | grep -aqE "$end" && break
    sleep 1
  done
  kill "$machine" 2>/dev/null
  wait "$machine"
  machine=''
  tr -d '\000\r' <serial | sed 's/\x1b\[[0-9;?=]*[A-Za-z]//g' >console
}

# How a machine stops by an exception.
stopped='^!!!! |^Synchronous Exception'
