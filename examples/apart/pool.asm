; Reads a natural field that AllocatePool hands out and nothing has written. By the notes its number is below 2^32.
.global main
main:
  MOVnw R4, @R0(+1,+16)   ; the system table
  MOVnw R4, @R4(+9,+24)   ; BootServices
  MOVqw R0, R0(-1,-0)     ; makes room for the locals: block
  MOVqw R5, R0
  PUSHn R5                ; Buffer
  MOVInw R5, (+1,+0)
  PUSHn R5                ; Size
  MOVIqw R5, 2
  PUSHn R5                ; PoolType: EfiLoaderData
  CALL32EXa @R4(+5,+24)   ; AllocatePool
  MOVqw R0, R0(+3,+0)
  MOVnw R7, R7
  CMPI64weq R7, 0
  JMP8cc failed
  MOVnw R5, @R0           ; block
  MOVnw R7, @R5
                          ; `MOVdw R7, R7` here mends it
  MOVIqw R5, 32
  SHR64 R7, R5            ; by the rules 0
  PUSH64 R7
  MOVnw R4, @R0(+2,+24)   ; the system table
  MOVnw R4, @R4(+9,+24)
  PUSHn @R0(+0,+8)        ; block
  CALL32EXa @R4(+6,+24)   ; FreePool
  MOVqw R0, R0(+1,+0)
  POP64 R7
failed:
  MOVqw R0, R0(+1,+0)
  RET
