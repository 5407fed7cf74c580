; Compares a native method's status as it comes. On IA32 EDK2 hands 64 bits back in R7, and the upper half is no part of a status. Then it
; compares the status as it is to be, and gives the block back.
.global main
main:
  MOVnw R4, @R0(+1,+16)   ; the system table
  MOVnw R4, @R4(+9,+24)   ; BootServices
  MOVqw R0, R0(-1,-0)     ; makes room for the locals: block
  MOVqw R5, R0
  PUSHn R5                ; Buffer
  MOVIqw R5, 64
  PUSHn R5                ; Size
  MOVIqw R5, 2
  PUSHn R5                ; PoolType: EfiLoaderData
  CALL32EXa @R4(+5,+24)   ; AllocatePool
  MOVqw R0, R0(+3,+0)
                          ; `MOVnw R7, R7` here mends it
  CMPI64weq R7, 0
  JMP8cs good
  MOVnw R7, R7
  CMPI64weq R7, 0
  JMP8cc failed
  PUSHn @R0(+2,+16)       ; the system table
  PUSHn @R0(+1,+0)        ; block
  CALL32 free
  MOVqw R0, R0(+2,+0)
  MOVIqw R7, 77           ; it was success all the same
failed:
  MOVqw R0, R0(+1,+0)
  RET
good:
  PUSHn @R0(+2,+16)       ; the system table
  PUSHn @R0(+1,+0)        ; block
  CALL32 free
  MOVqw R0, R0(+3,+0)
  MOVIqw R7, 0
  RET

free:                     ; gives a block back: free (Block, SystemTable)
  MOVnw R4, @R0(+1,+16)
  MOVnw R4, @R4(+9,+24)
  PUSHn @R0(+0,+16)       ; Buffer
  CALL32EXa @R4(+6,+24)   ; FreePool
  MOVqw R0, R0(+1,+0)
  RET
