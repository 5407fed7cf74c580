; Finds a protocol by its GUID and uses it.
.global main
main:
  MOVnw R4, @R0(+1,+16)   ; the system table
  MOVnw R4, @R4(+9,+24)   ; BootServices
  MOVqw R0, R0(-1,-0)     ; makes room for the locals: found
  MOVqw R5, R0
  PUSHn R5                ; Interface
  MOVIqw R5, 0
  PUSHn R5                ; Registration
  MOVRELd R5, guid
  PUSHn R5                ; Protocol
  CALL32EXa @R4(+37,+24)  ; LocateProtocol
  MOVqw R0, R0(+3,+0)
  MOVnw R7, R7
  CMPI64weq R7, 0
  JMP8cc failed
  MOVnw R5, @R0           ; found
  MOVRELd R6, line
  PUSHn R6                ; String
  PUSHn R5                ; This
  CALL32EXa @R5(+1,+0)    ; OutputString
  MOVqw R0, R0(+2,+0)
  MOVnw R7, R7
failed:
  MOVqw R0, R0(+1,+0)
  RET
.data
guid: .dd 0x387477c2      ; EFI_SIMPLE_TEXT_OUTPUT_PROTOCOL_GUID
  .dw 0x69c7, 0x11d2
  .db 0x8e, 0x39, 0x00, 0xa0, 0xc9, 0x69, 0x72, 0x3b
line: .dw 98, 121, 32, 97, 32, 112, 114, 111, 116, 111, 99, 111  ; 'by a protocol that was found\n'
  .dw 108, 32, 116, 104, 97, 116, 32, 119, 97, 115, 32, 102
  .dw 111, 117, 110, 100, 13, 10, 0
