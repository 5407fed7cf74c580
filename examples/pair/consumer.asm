; A driver that asks another one to double a number: linked at 10000, its code stands from place 1000.
.global main
main:
  MOVIqw R4, 21          ; the number
  PUSHn R4
  MOVnw R5, @R0(+1,+16)  ; the table of methods
  CALL32EXa @R5          ; Double
  MOVqw R0, R0(+1,+0)    ; drops the argument
  RET                    ; what Double gave
