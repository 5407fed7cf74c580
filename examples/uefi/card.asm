; The driver of a card: it lies in the card's option ROM, says to the firmware that it drives the card, and prints a line where the
; firmware starts it and where it stops it. So it shows the way, and does no work: examples/disk has a driver that does. The card is
; device 100e of vendor 8086.
.global main
main:                     ; EFI_STATUS main (EFI_HANDLE ImageHandle, EFI_SYSTEM_TABLE *SystemTable)
  MOVRELd R7, supported_cell
  BREAK 5
  MOVRELd R7, start_cell
  BREAK 5
  MOVRELd R7, stop_cell
  BREAK 5
  MOVnw R4, @R0(+1,+16)   ; the system table
  MOVRELd R5, globals
  MOVnw @R5, R4           ; for the other functions
  MOVRELd R6, binding
  MOVRELd R5, supported_cell
  MOVnw R5, @R5
  MOVnw @R6, R5           ; Supported
  MOVRELd R5, start_cell
  MOVnw R5, @R5
  MOVnw @R6(+1,+0), R5    ; Start
  MOVRELd R5, stop_cell
  MOVnw R5, @R5
  MOVnw @R6(+2,+0), R5    ; Stop
  MOVIdw @R6(+3,+0), 16   ; Version
  MOVnw R5, @R0(+0,+16)
  MOVnw @R6(+4,+0), R5    ; ImageHandle
  MOVnw @R6(+5,+0), R5    ; DriverBindingHandle
  MOVqw R0, R0(-1,-0)     ; makes room for the locals: handle
  MOVnw @R0, R5
  PUSHn R6                ; Interface
  MOVIqw R5, 0
  PUSHn R5                ; InterfaceType: EFI_NATIVE_INTERFACE
  MOVRELd R5, binding_guid
  PUSHn R5                ; Protocol
  MOVqw R5, R0(+3,+0)
  PUSHn R5                ; Handle
  MOVnw R4, @R4(+9,+24)   ; BootServices
  CALL32EXa @R4(+13,+24)  ; InstallProtocolInterface
  MOVqw R0, R0(+5,+0)
  MOVnw R7, R7
  RET

supported:                ; EFI_STATUS Supported (This, ControllerHandle, RemainingDevicePath)
  PUSH64 R1               ; vendor and device
  MOVqw R0, R0(-1,-0)     ; makes room for the locals: pci
  MOVIqw R5, 0
  MOVnw @R0, R5
  MOVqw R5, R0
  PUSHn R5                ; where the EFI_PCI_IO_PROTOCOL goes
  PUSHn @R0(+3,+24)       ; ControllerHandle
  PUSHn @R0(+3,+24)       ; This
  CALL32 open
  MOVqw R0, R0(+3,+0)
  CMPI64weq R7, 0
  JMP8cc supported_ends
  MOVnw R4, @R0           ; pci
  CMPI64weq R4, 0
  JMP8cs not_ours
  PUSHn R4
  CALL32 id
  MOVqw R0, R0(+1,+0)
  MOVqw R1, R7
  PUSHn @R0(+2,+24)       ; ControllerHandle
  PUSHn @R0(+2,+24)       ; This
  CALL32 close
  MOVqw R0, R0(+2,+0)
  CMPI32deq R1, 0x100e8086
  JMP8cc not_ours
  MOVIqw R7, 0
supported_ends:
  MOVqw R0, R0(+1,+0)
  POP64 R1
  RET
not_ours:
  CALL32 unsupported
  JMP8 supported_ends

start:                    ; EFI_STATUS Start (This, ControllerHandle, RemainingDevicePath)
  MOVqw R0, R0(-1,-0)     ; makes room for the locals: pci
  MOVIqw R5, 0
  MOVnw @R0, R5
  MOVqw R5, R0
  PUSHn R5                ; where the EFI_PCI_IO_PROTOCOL goes
  PUSHn @R0(+3,+16)       ; ControllerHandle
  PUSHn @R0(+3,+16)       ; This
  CALL32 open
  MOVqw R0, R0(+4,+0)
  CMPI64weq R7, 0
  JMP8cc start_ends
  MOVRELd R4, started
  PUSHn R4
  CALL32 say
  MOVqw R0, R0(+1,+0)
  MOVIqw R7, 0
start_ends:
  RET

stop:                     ; EFI_STATUS Stop (This, ControllerHandle, NumberOfChildren, ChildHandleBuffer)
  PUSHn @R0(+1,+16)       ; ControllerHandle
  PUSHn @R0(+1,+16)       ; This
  CALL32 close
  MOVqw R0, R0(+2,+0)
  MOVRELd R4, stopped
  PUSHn R4
  CALL32 say
  MOVqw R0, R0(+1,+0)
  MOVIqw R7, 0
  RET

open:                     ; opens a controller's EFI_PCI_IO_PROTOCOL: EFI_STATUS open (This, ControllerHandle, EFI_PCI_IO_PROTOCOL **Pci)
  MOVRELd R4, globals
  MOVnw R4, @R4           ; the system table
  CMPI64weq R4, 0
  JMP8cs not_open
  MOVIqw R5, 16
  PUSHn R5                ; Attributes: BY_DRIVER
  PUSHn @R0(+2,+16)       ; ControllerHandle
  MOVnw R5, @R0(+2,+16)   ; This
  PUSHn @R5(+5,+0)        ; AgentHandle: its DriverBindingHandle
  PUSHn @R0(+5,+16)       ; Interface: Pci
  MOVRELd R5, pci_guid
  PUSHn R5                ; Protocol
  PUSHn @R0(+6,+16)       ; Handle: the controller
  MOVnw R4, @R4(+9,+24)   ; BootServices
  CALL32EXa @R4(+32,+24)  ; OpenProtocol
  MOVqw R0, R0(+6,+0)
  MOVnw R7, R7            ; success, EFI_ALREADY_STARTED, EFI_ACCESS_DENIED or EFI_UNSUPPORTED
  RET
not_open:
  CALL32 unsupported
  RET

close:                    ; gives a controller's protocol back: close (This, ControllerHandle)
  MOVRELd R4, globals
  MOVnw R4, @R4
  CMPI64weq R4, 0
  JMP8cs not_closed
  PUSHn @R0(+1,+16)       ; ControllerHandle
  MOVnw R5, @R0(+1,+16)   ; This
  PUSHn @R5(+5,+0)        ; AgentHandle
  MOVRELd R5, pci_guid
  PUSHn R5                ; Protocol
  PUSHn @R0(+4,+16)       ; Handle
  MOVnw R4, @R4(+9,+24)
  CALL32EXa @R4(+33,+24)  ; CloseProtocol
  MOVqw R0, R0(+4,+0)
not_closed:
  RET

id:                       ; the first four bytes of a card's configuration: vendor and device
  MOVqw R0, R0(-0,-8)     ; makes room for the locals: id
  MOVqw R6, R0
  PUSHn R6                ; Buffer
  MOVIqw R5, 1
  PUSHn R5                ; Count
  MOVIqw R5, 0
  PUSHn R5                ; Offset
  MOVIqw R5, 2
  PUSHn R5                ; Width: EfiPciIoWidthUint32
  MOVnw R4, @R0(+4,+24)   ; pci
  PUSHn R4                ; This
  CALL32EXa @R4(+6,+0)    ; Pci.Read
  MOVqw R0, R0(+5,+0)
  MOVnw R7, R7
  CMPI64weq R7, 0
  JMP8cc no_id
  MOVdw R7, @R0           ; id
  MOVqw R0, R0(+0,+8)
  RET
no_id:
  MOVqw R0, R0(+0,+8)
  MOVIqw R7, 0
  RET

say:                      ; prints a line
  MOVRELd R4, globals
  MOVnw R4, @R4
  CMPI64weq R4, 0
  JMP8cs silent
  MOVnw R4, @R4(+5,+24)   ; ConOut
  PUSHn @R0(+0,+16)       ; String
  PUSHn R4                ; This
  CALL32EXa @R4(+1,+0)    ; OutputString
  MOVqw R0, R0(+2,+0)
silent:
  RET

unsupported:              ; EFI_UNSUPPORTED, at the width of a status
  MOVIqw R7, 1
  MOVInw R6, (+8,+0)      ; eight bits for each byte of a pointer
  SHL64 R7, R6 -1
  MOVIqw R6, 3
  OR64 R7, R6
  RET
.data
supported_cell: .thunk supported
start_cell: .thunk start
stop_cell: .thunk stop
globals: .zero 8          ; the system table
binding: .zero 48         ; EFI_DRIVER_BINDING_PROTOCOL, six natural units
binding_guid: .dd 0x18a031ab  ; EFI_DRIVER_BINDING_PROTOCOL_GUID
  .dw 0xb443, 0x4d1a
  .db 0xa5, 0xc0, 0x0c, 0x09, 0x26, 0x1e, 0x9f, 0x71
pci_guid: .dd 0x4cf5b200  ; EFI_PCI_IO_PROTOCOL_GUID
  .dw 0x68b8, 0x4ca5
  .db 0x9e, 0xec, 0xb2, 0x3e, 0x3f, 0x50, 0x02, 0x9a
started: .dw 99, 97, 114, 100, 58, 32, 115, 116, 97, 114, 116, 101  ; 'card: started\n'
  .dw 100, 13, 10, 0
stopped: .dw 99, 97, 114, 100, 58, 32, 115, 116, 111, 112, 112, 101  ; 'card: stopped\n'
  .dw 100, 13, 10, 0
