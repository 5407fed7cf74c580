; Calls a function by a relative CALL64. EDK2 takes its distance for an address.
.global main
main:
  CALL64 sub              ; `CALL32 sub` mends it
  RET
sub:
  MOVIqw R7, 0
  RET
