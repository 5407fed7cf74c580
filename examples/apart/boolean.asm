; Asks whether a string matches a pattern. The method gives a BOOLEAN, and of R7 one byte is that: the rest is what the method left there.
.global main
main:
  MOVnw R4, @R0(+1,+16)   ; the system table
  MOVnw R4, @R4(+9,+24)   ; BootServices
  MOVqw R0, R0(-1,-0)     ; makes room for the locals: collation
  MOVqw R5, R0
  PUSHn R5                ; Interface
  MOVIqw R5, 0
  PUSHn R5                ; Registration
  MOVRELd R5, guid
  PUSHn R5                ; Protocol
  CALL32EXa @R4(+37,+24)  ; LocateProtocol
  MOVqw R0, R0(+3,+0)
  MOVnw R7, R7
  CMPI64weq R7, 0
  JMP8cc failed
  MOVRELd R5, pattern
  PUSHn R5                ; Pattern
  MOVRELd R5, text
  PUSHn R5                ; String
  MOVnw R4, @R0(+2,+0)    ; collation
  PUSHn R4                ; This
  CALL32EXa @R4(+1,+0)    ; MetaiMatch
  MOVqw R0, R0(+3,+0)
  MOVnw R7, R7
                          ; `MOVbw R7, R7` here mends it
  CMPI64weq R7, 1
  JMP8cs matches
  MOVIqw R7, 77
  MOVqw R0, R0(+1,+0)
  RET
matches:
  MOVIqw R7, 0
failed:
  MOVqw R0, R0(+1,+0)
  RET
.data
guid: .dd 0xa4c751fc      ; EFI_UNICODE_COLLATION_PROTOCOL2_GUID
  .dw 0x23ae, 0x4c3e
  .db 0x92, 0xe9, 0x49, 0x64, 0xcf, 0x63, 0xf3, 0x49
text: .dw 97, 98, 99, 0   ; 'abc'
pattern: .dw 97, 42, 0    ; 'a*'
