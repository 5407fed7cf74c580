; POPn with an immediate. EDK2 cuts the sum to the size of a pointer, and the rules don't.
.global main
main:
  MOVIqd R4, -1
  MOVdw R4, R4            ; 0xffffffff
  PUSHn R4
  POPn R7 1               ; by the rules 2^32
  CMPI64weq R7, 0
  JMP8cs cut
  MOVIqw R7, 0
  RET
cut:
  MOVIqw R7, 77
  RET
