; Prints the lines of a table, one after the other.
.global main
main:
  PUSH64 R1
  PUSH64 R2
  MOVnw R1, @R0(+1,+32)   ; the system table
  MOVIqw R2, 0            ; how many lines are printed
next:
  CMPI64wugte R2, 3
  JMP8cs done
  MOVqw R6, R2
  MOVIqw R4, 8
  MULU64 R6, R4           ; how far into the table
  MOVRELd R5, table
  ADD64 R5, R6
  MOVqw R6, @R5           ; the line
  MOVnw R5, @R1(+5,+24)   ; ConOut
  PUSHn R6
  PUSHn R5
  CALL32EXa @R5(+1,+0)    ; OutputString
  MOVqw R0, R0(+2,+0)
  MOVqw R2, R2(+0,+1)
  JMP8 next
done:
  POP64 R2
  POP64 R1
  MOVIqw R7, 0
  RET
.data
table: .dq first
  .dq second
  .dq third
first: .dw 116, 104, 101, 32, 102, 105, 114, 115, 116, 32, 108, 105  ; 'the first line\n'
  .dw 110, 101, 13, 10, 0
second: .dw 116, 104, 101, 32, 115, 101, 99, 111, 110, 100, 32, 108  ; 'the second line\n'
  .dw 105, 110, 101, 13, 10, 0
third: .dw 116, 104, 101, 32, 116, 104, 105, 114, 100, 32, 108, 105  ; 'the third line\n'
  .dw 110, 101, 13, 10, 0
