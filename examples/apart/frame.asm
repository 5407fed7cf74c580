; Calls a native method of ten arguments from a function that has a slot of four bytes. On AArch64 EDK2 hands the ninth and the tenth over
; four bytes off: so Blt finds a height of 0, and gives EFI_INVALID_PARAMETER.
.global main
main:
  MOVnw R4, @R0(+1,+16)   ; the system table
  MOVnw R4, @R4(+9,+24)   ; BootServices
  MOVqw R0, R0(-1,-4)     ; makes room for the locals: screen, number
                          ; with eight bytes in place of four it is mended
  MOVqw R5, R0
  PUSHn R5                ; Interface
  MOVIqw R5, 0
  PUSHn R5                ; Registration
  MOVRELd R5, guid
  PUSHn R5                ; Protocol
  CALL32EXa @R4(+37,+24)  ; LocateProtocol
  MOVqw R0, R0(+3,+0)
  MOVnw R7, R7
  CMPI64weq R7, 0
  JMP8cc failed
  MOVIqw R5, 0
  PUSHn R5                ; Delta
  MOVIqw R6, 8
  PUSHn R6                ; Height
  PUSHn R6                ; Width
  PUSHn R5                ; DestinationY
  PUSHn R5                ; DestinationX
  PUSHn R5                ; SourceY
  PUSHn R5                ; SourceX
  PUSHn R5                ; BltOperation: EfiBltVideoFill
  MOVRELd R6, colour
  PUSHn R6                ; BltBuffer
  MOVnw R4, @R0(+9,+0)    ; screen
  PUSHn R4                ; This
  CALL32EXa @R4(+2,+0)    ; Blt
  MOVqw R0, R0(+10,+0)
  MOVnw R7, R7
failed:
  MOVqw R0, R0(+1,+4)
  RET
.data
guid: .dd 0x9042a9de      ; EFI_GRAPHICS_OUTPUT_PROTOCOL_GUID
  .dw 0x23dc, 0x4a38
  .db 0x96, 0xfb, 0x7a, 0xde, 0xd0, 0x80, 0x51, 0x6a
colour: .dd 0x00ff8040
