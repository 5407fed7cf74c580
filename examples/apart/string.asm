; Prints a text without a zero at its end. Firmware prints what lies behind it, up to a zero there.
.global main
main:
  MOVnw R4, @R0(+1,+16)   ; the system table
  MOVnw R5, @R4(+5,+24)   ; ConOut
  MOVRELd R6, line
  PUSHn R6                ; String
  PUSHn R5                ; This
  CALL32EXa @R5(+1,+0)    ; OutputString
  MOVqw R0, R0(+2,+0)
  RET
.data
line: .dw 111, 110, 101, 13, 10  ; 'one'; a 0 behind it mends it
next: .dw 116, 119, 111, 0       ; 'two'
