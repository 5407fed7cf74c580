#!/usr/bin/env bash
# Times the loop of crates/machine_bench beside EDK2's interpreter, which is built of its own sources as a program of Linux, with the flags of
# its RELEASE_GCC5 for IA32 and X64.
#
#     EDK2=FOLDER bench/edk2.sh
#
# FOLDER has Debian's sources of the package edk2 (scripts/interpreter.sh).
# shellcheck source=bench/lib.sh
. "$(dirname -- "${BASH_SOURCE[0]}")/lib.sh"
need python3 gcc
# shellcheck source=scripts/interpreter.sh
. "$top/scripts/interpreter.sh"
has_interpreter || exit 1
machine=$(program machine_bench)

# What firmware has and a program of Linux hasn't, and the loop: as many rounds as the word says.
cat >loop.c <<'.'
#include "EbcInt.h"
#include "EbcExecute.h"

extern int printf (const char *, ...);
extern void exit (int);
extern unsigned long strtoul (const char *, char **, int);

EFI_BOOT_SERVICES *gBS;
EFI_GUID gEfiEbcSimpleDebuggerProtocolGuid;
VM_CONTEXT *mVmPtr;

BOOLEAN EFIAPI DebugCodeEnabled (VOID) { return FALSE; }
EFI_STATUS EbcDebugSignalException (EFI_EXCEPTION_TYPE Type, EXCEPTION_FLAGS Flags, VM_CONTEXT *VmPtr) { exit (1); }
VOID EbcLLCALLEX (VM_CONTEXT *VmPtr, UINTN Function, UINTN Stack, VOID *Frame, UINT8 Size) { exit (1); }
EFI_STATUS EbcCreateThunks (EFI_HANDLE Image, VOID *Entry, VOID **Thunk, UINT32 Flags) { exit (1); }

static UINT64 sum, stack[4096];
static UINT8 code[] = {
  0x4C, 0x21, 0x20, 0xB4, 0x4C, 0x14, 0x20, 0x4B, 0x45, 0x51, 0x82, 0xFA, 0x04, 0x00
};

int main (int count, char **words) {
  VM_CONTEXT vm = { .Gpr = { (UINTN)&stack[4000], 0, 1, (UINTN)&sum, 0, strtoul (words[1], NULL, 10) } };

  vm.Ip = code;
  vm.StackTop = stack;
  vm.StackRetAddr = (UINT64)vm.Gpr[0];
  vm.StackMagicPtr = (UINTN *)&stack[0];
  *vm.StackMagicPtr = VM_STACK_KEY_VALUE;
  if (EbcExecute (&vm) != EFI_SUCCESS) return 1;
  printf ("rounds %llu sum %llu\n", (unsigned long long)vm.Gpr[1], (unsigned long long)sum);
  return 0;
}
.
for folder in Ia32 X64; do
  build_interpreter "$folder" loop.c "edk2.$folder" || die "EDK2's interpreter can't be built for $folder"
done

inputs() { units=$1 ours=("$machine" "$width" "$1") peer=("$work/edk2.$folder" $(($1 / 6))); }
right() { cmp -s <("${ours[@]}") <("${peer[@]}"); }

for width in 32 64; do
  [ "$width" = 32 ] && folder=Ia32 || folder=X64
  ours_start=("$machine" "$width" 6) peer_start=("$work/edk2.$folder" 1)
  series "the machine, width $width" steps 3750000 "EDK2's interpreter, $folder"
done
