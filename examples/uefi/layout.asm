; Links four records of the firmware's memory and prints what their numbers come to.
.global main
main:
  PUSH64 R1
  MOVnw R1, @R0(+1,+24)   ; the system table
  MOVqw R0, R0(-2,-0)     ; makes room for the locals: records, last
  MOVqw R5, R0            ; the address of `records`
  PUSHn R5                ; Buffer
  MOVInw R4, (+16,+0)     ; four records of four natural units
  PUSHn R4                ; Size
  MOVIqw R4, 2
  PUSHn R4                ; PoolType: EfiLoaderData
  MOVnw R4, @R1(+9,+24)   ; BootServices
  CALL32EXa @R4(+5,+24)   ; AllocatePool
  MOVqw R0, R0(+3,+0)
  MOVnw R7, R7
  CMPI64weq R7, 0
  JMP8cc failed
  MOVIqw R7, 0
  MOVnw @R0(+1,+0), R7    ; no record is the last yet
  MOVIqw R5, 0            ; how many are filled
fill:
  CMPI64wugte R5, 4
  JMP8cs filled
  MOVqw R6, R5
  MOVInw R4, (+4,+0)      ; a record's size
  MUL64 R6, R4
  MOVnw R4, @R0           ; the records
  ADD64 R4, R6            ; this one
  MOVqw R6, R5
  MOVIqw R7, 3
  MULU64 R6, R7
  MOVqw R6, R6(+0,+1)     ; its number: 1, 4, 7, 10
  MOVdw @R4, R6           ; id, 4 bytes
  MOVbw @R4(+2,+0), R5    ; flag, a byte
  MOVnw @R4(+3,+0), R6    ; size, natural
  MOVnw R7, @R0(+1,+0)
  MOVnw @R4(+1,+0), R7    ; next: the one before
  MOVnw @R0(+1,+0), R4
  MOVqw R5, R5(+0,+1)
  JMP8 fill
filled:
  MOVIqw R5, 0            ; the sum
  MOVnw R4, @R0(+1,+0)
walk:
  CMPI64weq R4, 0
  JMP8cs walked
  MOVdw R6, @R4
  MOVnw R7, @R4(+3,+0)
  MULU64 R6, R7
  ADD64 R5, R6            ; id by size
  MOVbw R6, @R4(+2,+0)
  ADD64 R5, R6            ; and flag
  MOVnw R4, @R4(+1,+0)
  JMP8 walk
walked:
  PUSH64 R5
  CALL32 hex
  MOVqw R0, R0(+0,+8)
  MOVRELd R6, digits
  MOVnw R5, @R1(+5,+24)   ; ConOut
  PUSHn R6
  PUSHn R5
  CALL32EXa @R5(+1,+0)    ; OutputString
  MOVqw R0, R0(+2,+0)
  PUSHn @R0               ; Buffer
  MOVnw R4, @R1(+9,+24)
  CALL32EXa @R4(+6,+24)   ; FreePool
  MOVqw R0, R0(+1,+0)
  MOVnw R7, R7
failed:
  MOVqw R0, R0(+2,+0)
  POP64 R1
  RET
hex:                      ; the digits of a number of 64 bits, into `digits`
  MOVIqw R4, 0            ; how many are there
digit:
  CMPI64wugte R4, 16
  JMP8cs written
  MOVqw R6, R4
  MOVIqw R7, 4
  MULU64 R6, R7
  MOVIqw R7, 60
  SUB64 R7, R6            ; the digit's bits begin here
  MOVqw R6, @R0(+0,+16)   ; the number
  SHR64 R6, R7
  MOVIqw R7, 15
  AND64 R6, R7
  MOVIqw R5, 2
  MULU64 R6, R5
  MOVRELd R5, alphabet
  ADD64 R5, R6
  MOVww R6, @R5           ; the digit
  MOVqw R7, R4
  MOVIqw R5, 2
  MULU64 R7, R5
  MOVRELd R5, digits
  ADD64 R5, R7
  MOVww @R5, R6
  MOVqw R4, R4(+0,+1)
  JMP8 digit
written:
  RET
.data
alphabet: .dw 48, 49, 50, 51, 52, 53, 54, 55, 56, 57, 97, 98, 99, 100, 101, 102  ; 0 to f
digits: .dw 48, 48, 48, 48, 48, 48, 48, 48, 48, 48, 48, 48  ; '0000000000000000\n'
  .dw 48, 48, 48, 48, 13, 10, 0
