# shellcheck shell=bash
# Builds EDK2's interpreter of EBC as a program of Linux, around a `main` in C, with the flags of EDK2's RELEASE_GCC5. Read by bench/edk2.sh and
# scripts/depart.sh. EDK2 names the folder of Debian's sources of the package edk2, as `apt-get source edk2` unpacks them; nothing in it is
# changed.

# Whether the sources are there, and gcc builds for 32 bits. What isn't there is named.
has_interpreter() {
  if [ ! -f "${EDK2:-/nowhere}/MdeModulePkg/Universal/EbcDxe/EbcExecute.c" ]; then
    echo "EDK2 names no folder of Debian's sources of edk2: '${EDK2:-}'" >&2
    return 1
  fi
  if ! gcc -m32 -x c - -o /dev/null <<<'int main(void) { return 0; }' 2>/dev/null; then
    echo "gcc builds nothing for 32 bits: install Debian's package gcc-multilib" >&2
    return 1
  fi
}

# Builds a file around the C of another one, for Ia32 or X64. That has to have what firmware gives the interpreter: `gBS`, `mVmPtr`,
# `gEfiEbcSimpleDebuggerProtocolGuid`, `DebugCodeEnabled`, `EbcDebugSignalException`, `EbcLLCALLEX` and `EbcCreateThunks`.
build_interpreter() {
  local width=$1 source=$2 file=$3 dxe=$EDK2/MdeModulePkg/Universal/EbcDxe base=$EDK2/MdePkg/Library/BaseLib sources flags room status=0 name
  sources=("$source" "$dxe/EbcExecute.c" "$dxe/EbcDebuggerHook.c" "$base/Math64.c" "$base/$width/GccInline.c")
  for name in ARShiftU64 LShiftU64 RShiftU64 MultU64x64 MultS64x64 DivU64x64Remainder DivS64x64Remainder Unaligned; do sources+=("$base/$name.c"); done
  if [ "$width" = Ia32 ]; then
    flags=(-m32 -march=i586 -malign-double -freorder-blocks -mno-stack-arg-probe -D EFI32 -fno-pic -no-pie)
  else
    flags=(-m64 -march=x86-64 '-DEFIAPI=__attribute__((ms_abi))' -maccumulate-outgoing-args -mno-red-zone -mcmodel=small -fpie -pie
      -mno-stack-arg-probe -DUSING_LTO)
  fi
  room=$(mktemp -d) && : >"$room/AutoGen.h"
  gcc -Os -flto -w -fshort-wchar -fno-builtin -fno-strict-aliasing -fno-common -ffunction-sections -fdata-sections -fno-stack-protector \
    -fno-asynchronous-unwind-tables -include AutoGen.h "${flags[@]}" -DMDEPKG_NDEBUG -I"$room" -I"$dxe" -I"$EDK2/MdePkg/Include" \
    -I"$EDK2/MdePkg/Include/$width" -I"$EDK2/MdeModulePkg/Include" -I"$base" "${sources[@]}" -Wl,--gc-sections -o "$file" >"$room/said" 2>&1 ||
    { cat "$room/said" >&2; status=1; }
  rm -rf "$room"
  return "$status"
}
