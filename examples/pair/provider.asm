; A driver that doubles numbers for another one: linked at 10000, its code stands from place 1000.
.global main
main:
  MOVIqw R7, 0           ; the status of success
  RET
double:
  MOVnw R7, @R0(+0,+16)  ; the number
  ADD64 R7, R7
  RET
