; Calls a function while R0 is odd. EDK2 stops at the RET of what is called.
.global main
main:
  MOVqw R0, R0(-0,-1)     ; makes room for the locals: a byte
                          ; with two bytes in place of one it is mended
  CALL32 sub
  MOVqw R0, R0(+0,+1)
  RET
sub:
  MOVIqw R7, 0
  RET
