#!/usr/bin/env bash
# Builds EDK2's interpreter of EBC for AArch64 as a driver that the firmware's shell loads. Debian's AAVMF is built without it.
#
#     bash scripts/ebc_dxe.sh EDK2 FILE
#
# EDK2 is the folder of Debian's sources of the package edk2, as `apt-get source edk2` unpacks them; nothing in it but BaseTools and one
# library of the linker's is changed. FILE is the driver. It takes some minutes the first time.
#
# Status 2: the words are others. Status 3: something of a package of Debian isn't there, and is named. Any other but 0: the build failed,
# and what it said is shown.
set -eu
[ $# = 2 ] && [ -f "$1/MdeModulePkg/Universal/EbcDxe/EbcDxe.inf" ] || { echo 'usage: ebc_dxe.sh EDK2 FILE' >&2; exit 2; }
absent=0
needs() {
  "${@:2}" >/dev/null 2>&1 && return
  echo "ebc_dxe.sh: '${*:2}' fails: install Debian's package $1 by 'apt-get install $1'" >&2
  absent=1
}
needs gcc-aarch64-linux-gnu aarch64-linux-gnu-gcc --version
needs g++ g++ --version
needs make make --version
needs uuid-dev test -e /usr/include/uuid/uuid.h
needs python3 python3 --version
needs python3-distutils python3 -c 'import distutils'
[ "$absent" = 0 ] || exit 3
edk2=$(realpath -- "$1") file=$(realpath -m -- "$2")
room=$(mktemp -d)
trap 'rm -rf "$room"' EXIT
# Debian's sources come without this object, as its own rules make it.
lto=$edk2/ArmPkg/Library/GccLto/liblto-aarch64
[ -e "$lto.a" ] || aarch64-linux-gnu-gcc -c -fpic "$lto.s" -o "$lto.a"
[ -e "$edk2/BaseTools/Source/C/bin/GenFw" ] || make -s -C "$edk2/BaseTools" >"$room/said" 2>&1 || { cat "$room/said" >&2; exit 1; }
cat >"$room/EbcDxe.dsc" <<'.'
[Defines]
  PLATFORM_NAME = EbcDxe
  PLATFORM_GUID = 6ad0b9a3-53c1-4a0e-9d4c-65626364786c
  PLATFORM_VERSION = 1.0
  DSC_SPECIFICATION = 0x00010005
  OUTPUT_DIRECTORY = Build/EbcDxe
  SUPPORTED_ARCHITECTURES = AARCH64
  BUILD_TARGETS = RELEASE
  SKUID_IDENTIFIER = DEFAULT
[LibraryClasses]
  ArmLib|ArmPkg/Library/ArmLib/ArmBaseLib.inf
  BaseLib|MdePkg/Library/BaseLib/BaseLib.inf
  BaseMemoryLib|MdePkg/Library/BaseMemoryLib/BaseMemoryLib.inf
  CacheMaintenanceLib|ArmPkg/Library/ArmCacheMaintenanceLib/ArmCacheMaintenanceLib.inf
  DebugLib|MdePkg/Library/BaseDebugLibNull/BaseDebugLibNull.inf
  MemoryAllocationLib|MdePkg/Library/UefiMemoryAllocationLib/UefiMemoryAllocationLib.inf
  PcdLib|MdePkg/Library/BasePcdLibNull/BasePcdLibNull.inf
  PeCoffExtraActionLib|MdePkg/Library/BasePeCoffExtraActionLibNull/BasePeCoffExtraActionLibNull.inf
  PeCoffLib|MdePkg/Library/BasePeCoffLib/BasePeCoffLib.inf
  PrintLib|MdePkg/Library/BasePrintLib/BasePrintLib.inf
  RegisterFilterLib|MdePkg/Library/RegisterFilterLibNull/RegisterFilterLibNull.inf
  UefiBootServicesTableLib|MdePkg/Library/UefiBootServicesTableLib/UefiBootServicesTableLib.inf
  UefiDriverEntryPoint|MdePkg/Library/UefiDriverEntryPoint/UefiDriverEntryPoint.inf
  UefiLib|MdePkg/Library/UefiLib/UefiLib.inf
  NULL|ArmPkg/Library/CompilerIntrinsicsLib/CompilerIntrinsicsLib.inf
  NULL|MdePkg/Library/BaseStackCheckLib/BaseStackCheckLib.inf
[Components]
  MdeModulePkg/Universal/EbcDxe/EbcDxe.inf
.
cd "$room"
mkdir Conf
set +eu --
export WORKSPACE=$room PACKAGES_PATH=$edk2 CONF_PATH=$room/Conf EDK_TOOLS_PATH=$edk2/BaseTools PYTHON_COMMAND=python3
export GCC5_AARCH64_PREFIX=aarch64-linux-gnu-
. "$edk2/edksetup.sh" >"$room/said" 2>&1
set -eu
build -q -a AARCH64 -t GCC5 -b RELEASE -p EbcDxe.dsc >"$room/said" 2>&1 || { cat "$room/said" >&2; exit 1; }
cp Build/EbcDxe/RELEASE_GCC5/AARCH64/EbcDxe.efi "$file"
