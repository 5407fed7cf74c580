; Makes an event with a notification function, signals it twice, and prints how often the firmware entered the function.
.global main
main:
  MOVRELd R7, cell
  BREAK 5                 ; makes the thunk of tick
  PUSH64 R1
  MOVnw R1, @R0(+1,+24)   ; the system table
  MOVRELd R4, context
  MOVnw @R4(+1,+0), R1    ; for tick
  MOVqw R0, R0(-1,-0)     ; makes room for the locals: event
  MOVqw R5, R0
  PUSHn R5                ; Event
  PUSHn R4                ; NotifyContext
  MOVRELd R4, cell
  PUSHn @R4               ; NotifyFunction
  MOVIqw R4, 8
  PUSHn R4                ; NotifyTpl: TPL_CALLBACK
  MOVIqw R4, 512
  PUSHn R4                ; Type: EVT_NOTIFY_SIGNAL
  MOVnw R4, @R1(+9,+24)   ; BootServices
  CALL32EXa @R4(+7,+24)   ; CreateEvent
  MOVqw R0, R0(+5,+0)
  MOVnw R7, R7
  CMPI64weq R7, 0
  JMP32cc failed
  PUSHn @R0               ; Event
  MOVnw R4, @R1(+9,+24)
  CALL32EXa @R4(+10,+24)  ; SignalEvent
  MOVnw R4, @R1(+9,+24)
  CALL32EXa @R4(+10,+24)  ; SignalEvent
  MOVnw R4, @R1(+9,+24)
  CALL32EXa @R4(+11,+24)  ; CloseEvent
  MOVqw R0, R0(+1,+0)
  MOVRELd R4, context
  MOVnw R5, @R4           ; ticks
  PUSH64 R5
  CALL32 hex
  MOVqw R0, R0(+0,+8)
  MOVRELd R6, digits
  MOVnw R5, @R1(+5,+24)   ; ConOut
  PUSHn R6
  PUSHn R5
  CALL32EXa @R5(+1,+0)    ; OutputString
  MOVqw R0, R0(+2,+0)
  MOVnw R7, R7
failed:
  MOVqw R0, R0(+1,+0)
  POP64 R1
  RET
tick:                     ; VOID tick (EFI_EVENT Event, VOID *Context)
  MOVnw R4, @R0(+1,+16)   ; the context
  MOVnw R5, @R4           ; ticks
  MOVIqw R6, 1
  ADD32 R5, R6
  MOVnw @R4, R5
  MOVnw R5, @R4(+1,+0)    ; the system table
  CMPI64weq R5, 0
  JMP8cs quiet
  MOVnw R5, @R5(+5,+24)   ; ConOut
  MOVRELd R6, line
  PUSHn R6
  PUSHn R5
  CALL32EXa @R5(+1,+0)    ; OutputString
  MOVqw R0, R0(+2,+0)
quiet:
  RET
hex:                      ; the digits of a number of 64 bits, into `digits`
  MOVIqw R4, 0            ; how many are there
digit:
  CMPI64wugte R4, 16
  JMP8cs written
  MOVqw R6, R4
  MOVIqw R7, 4
  MULU64 R6, R7
  MOVIqw R7, 60
  SUB64 R7, R6            ; the digit's bits begin here
  MOVqw R6, @R0(+0,+16)   ; the number
  SHR64 R6, R7
  MOVIqw R7, 15
  AND64 R6, R7
  MOVIqw R5, 2
  MULU64 R6, R5
  MOVRELd R5, alphabet
  ADD64 R5, R6
  MOVww R6, @R5           ; the digit
  MOVqw R7, R4
  MOVIqw R5, 2
  MULU64 R7, R5
  MOVRELd R5, digits
  ADD64 R5, R7
  MOVww @R5, R6
  MOVqw R4, R4(+0,+1)
  JMP8 digit
written:
  RET
.data
cell: .thunk tick
context: .zero 16         ; ticks and the system table, two natural units
alphabet: .dw 48, 49, 50, 51, 52, 53, 54, 55, 56, 57, 97, 98, 99, 100, 101, 102  ; 0 to f
digits: .dw 48, 48, 48, 48, 48, 48, 48, 48, 48, 48, 48, 48  ; '0000000000000000\n'
  .dw 48, 48, 48, 48, 13, 10, 0
line: .dw 116, 105, 99, 107, 13, 10, 0  ; 'tick\n'
