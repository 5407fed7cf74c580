; Asks the firmware for what has numbers of 64 bits or a list of arguments of any length: a page, a timer, a protocol of its own.
.global main
main:
  PUSH64 R1
  MOVnw R1, @R0(+1,+24)   ; the system table
  MOVqw R0, R0(-3,-8)     ; makes room for the locals: page, event, index, handle

  MOVqw R5, R0
  PUSHn R5                ; Memory: EFI_PHYSICAL_ADDRESS *, 64 bits at both widths
  MOVIqw R4, 1
  PUSHn R4                ; Pages
  MOVIqw R4, 2
  PUSHn R4                ; MemoryType: EfiLoaderData
  MOVIqw R4, 0
  PUSHn R4                ; Type: AllocateAnyPages
  MOVnw R4, @R1(+9,+24)
  CALL32EXa @R4(+2,+24)   ; AllocatePages
  MOVqw R0, R0(+4,+0)
  MOVnw R7, R7
  CMPI64weq R7, 0
  JMP32cc failed
  MOVqw R5, @R0           ; the page
  MOVIqw R6, 4088
  ADD64 R5, R6
  MOVIqw R4, 77
  MOVbw @R5, R4           ; a byte near its end
  MOVIqw R4, 1
  PUSHn R4                ; Pages
  PUSH64 @R0(+1,+0)       ; Memory: EFI_PHYSICAL_ADDRESS, by value
  MOVnw R4, @R1(+9,+24)
  CALL32EXa @R4(+3,+24)   ; FreePages
  MOVqw R0, R0(+1,+8)
  MOVnw R7, R7
  CMPI64weq R7, 0
  JMP32cc failed
  MOVnw R5, @R1(+5,+24)
  MOVRELd R6, pages
  PUSHn R6
  PUSHn R5
  CALL32EXa @R5(+1,+0)
  MOVqw R0, R0(+2,+0)

  MOVqw R5, R0(+0,+8)
  PUSHn R5                ; Event
  MOVIqw R4, 0
  PUSHn R4                ; NotifyContext
  PUSHn R4                ; NotifyFunction
  PUSHn R4                ; NotifyTpl
  MOVIqq R4, 0x80000000
  PUSHn R4                ; Type: EVT_TIMER
  MOVnw R4, @R1(+9,+24)
  CALL32EXa @R4(+7,+24)   ; CreateEvent
  MOVqw R0, R0(+5,+0)
  MOVnw R7, R7
  CMPI64weq R7, 0
  JMP32cc failed
  MOVIqd R4, 100000
  PUSH64 R4               ; TriggerTime: UINT64, in 100 ns
  MOVIqw R4, 1
  PUSHn R4                ; Type: TimerRelative
  PUSHn @R0(+1,+16)       ; Event
  MOVnw R4, @R1(+9,+24)
  CALL32EXa @R4(+8,+24)   ; SetTimer
  MOVqw R0, R0(+2,+8)
  MOVnw R7, R7
  CMPI64weq R7, 0
  JMP32cc timer_failed
  MOVqw R5, R0(+1,+8)
  PUSHn R5                ; Index
  MOVqw R5, R0(+1,+8)     ; the address of `event`, one slot further
  PUSHn R5                ; Event
  MOVIqw R4, 1
  PUSHn R4                ; NumberOfEvents
  MOVnw R4, @R1(+9,+24)
  CALL32EXa @R4(+9,+24)   ; WaitForEvent
  MOVqw R0, R0(+3,+0)
  MOVnw R7, R7
  CMPI64weq R7, 0
  JMP32cc timer_failed
  PUSHn @R0(+0,+8)        ; Event
  MOVnw R4, @R1(+9,+24)
  CALL32EXa @R4(+11,+24)  ; CloseEvent
  MOVqw R0, R0(+1,+0)
  MOVnw R7, R7
  CMPI64weq R7, 0
  JMP32cc failed
  MOVnw R5, @R1(+5,+24)
  MOVRELd R6, timer
  PUSHn R6
  PUSHn R5
  CALL32EXa @R5(+1,+0)
  MOVqw R0, R0(+2,+0)

  MOVIqw R4, 0
  MOVnw @R0(+2,+8), R4    ; no handle yet
  PUSHn R4                ; the end of the list
  MOVRELd R5, pages
  PUSHn R5                ; an interface
  MOVRELd R6, guid
  PUSHn R6                ; and its GUID
  MOVqw R5, R0(+5,+8)
  PUSHn R5                ; Handle
  MOVnw R4, @R1(+9,+24)
  CALL32EXa @R4(+38,+24)  ; InstallMultipleProtocolInterfaces
  MOVqw R0, R0(+4,+0)
  MOVnw R7, R7
  CMPI64weq R7, 0
  JMP32cc failed
  MOVIqw R4, 0
  PUSHn R4
  MOVRELd R5, pages
  PUSHn R5
  MOVRELd R6, guid
  PUSHn R6
  PUSHn @R0(+5,+8)        ; Handle
  MOVnw R4, @R1(+9,+24)
  CALL32EXa @R4(+39,+24)  ; UninstallMultipleProtocolInterfaces
  MOVqw R0, R0(+4,+0)
  MOVnw R7, R7
  CMPI64weq R7, 0
  JMP32cc failed
  MOVnw R5, @R1(+5,+24)
  MOVRELd R6, protocols
  PUSHn R6
  PUSHn R5
  CALL32EXa @R5(+1,+0)
  MOVqw R0, R0(+2,+0)
  MOVnw R7, R7
failed:
  MOVqw R0, R0(+3,+8)
  POP64 R1
  RET
timer_failed:
  PUSHn R7                ; the status, for the event is closed on each path
  PUSHn @R0(+1,+8)        ; Event
  MOVnw R4, @R1(+9,+24)
  CALL32EXa @R4(+11,+24)  ; CloseEvent
  MOVqw R0, R0(+1,+0)
  POPn R7
  JMP8 failed
.data
guid: .dd 0x6e6f6464     ; a GUID of our own
  .dw 0x7970, 0x4f70
  .db 0x8c, 0x61, 0x72, 0x64, 0x65, 0x62, 0x63, 0x01
pages: .dw 112, 97, 103, 101, 115, 13, 10, 0  ; 'pages\n'
timer: .dw 116, 105, 109, 101, 114, 13, 10, 0  ; 'timer\n'
protocols: .dw 112, 114, 111, 116, 111, 99, 111, 108, 115, 13, 10, 0  ; 'protocols\n'
