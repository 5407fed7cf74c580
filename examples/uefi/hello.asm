; Prints a line through the firmware's console.
.global main
main:
  MOVnw R4, @R0(+1,+16)   ; the system table, the second argument
  MOVnw R5, @R4(+5,+24)   ; its ConOut
  MOVRELd R6, line
  PUSHn R6                ; String
  PUSHn R5                ; This
  CALL32EXa @R5(+1,+0)    ; OutputString
  MOVqw R0, R0(+2,+0)     ; drops both arguments
  MOVnw R7, R7            ; as many bytes of the status as a pointer has
  RET
.data
line: .dw 72, 101, 108, 108, 111, 32, 102, 114, 111, 109, 32, 101  ; 'Hello from ebc\n'
  .dw 98, 99, 13, 10, 0
