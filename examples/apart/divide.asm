; Divides the smallest number by -1. EDK2 has the processor divide, which at X64 raises a divide error of the machine.
.global main
main:
  MOVIqq R4, 0x8000000000000000
  MOVIqw R5, -1
  DIV64 R4, R5
  MOVIqw R7, 0
  RET
