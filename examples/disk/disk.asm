; The driver of a card of shared memory, QEMU's ivshmem-plain (device 1110 of vendor 1af4): it lies in the card's option ROM, and shows
; the memory to the firmware as a disk with blocks of 512 bytes, by EFI_BLOCK_IO_PROTOCOL. The memory is the card's BAR 2.
.global main
main:                     ; EFI_STATUS main (EFI_HANDLE ImageHandle, EFI_SYSTEM_TABLE *SystemTable)
  MOVRELd R7, supported_cell
  BREAK 5
  MOVRELd R7, start_cell
  BREAK 5
  MOVRELd R7, stop_cell
  BREAK 5
  MOVRELd R7, reset_cell
  BREAK 5
  MOVRELd R7, read_cell
  BREAK 5
  MOVRELd R7, write_cell
  BREAK 5
  MOVRELd R7, flush_cell
  BREAK 5
  MOVRELd R7, driver_name_cell
  BREAK 5
  MOVRELd R7, controller_name_cell
  BREAK 5
  MOVnw R4, @R0(+1,+16)   ; the system table
  MOVnw R4, @R4(+9,+24)   ; BootServices
  MOVRELd R5, globals
  MOVnw @R5, R4           ; for the other functions
  MOVRELd R6, binding
  MOVRELd R5, supported_cell
  MOVnw R5, @R5
  MOVnw @R6, R5           ; Supported
  MOVRELd R5, start_cell
  MOVnw R5, @R5
  MOVnw @R6(+1,+0), R5    ; Start
  MOVRELd R5, stop_cell
  MOVnw R5, @R5
  MOVnw @R6(+2,+0), R5    ; Stop
  MOVIdw @R6(+3,+0), 16   ; Version
  MOVnw R5, @R0(+0,+16)
  MOVnw @R6(+4,+0), R5    ; ImageHandle
  MOVnw @R6(+5,+0), R5    ; DriverBindingHandle
  MOVqw R0, R0(-1,-0)     ; makes room for the locals: handle
  MOVnw @R0, R5
  MOVRELd R6, names
  MOVRELd R5, driver_name_cell
  MOVnw R5, @R5
  MOVnw @R6, R5           ; GetDriverName
  MOVRELd R5, controller_name_cell
  MOVnw R5, @R5
  MOVnw @R6(+1,+0), R5    ; GetControllerName
  MOVRELd R5, english
  MOVnw @R6(+2,+0), R5    ; SupportedLanguages
  MOVIqw R5, 0
  PUSHn R5                ; the end of the list
  PUSHn R6                ; an interface
  MOVRELd R5, names_guid
  PUSHn R5                ; and its GUID
  MOVRELd R5, binding
  PUSHn R5
  MOVRELd R5, binding_guid
  PUSHn R5
  MOVqw R5, R0(+5,+0)
  PUSHn R5                ; Handle
  CALL32EXa @R4(+38,+24)  ; InstallMultipleProtocolInterfaces
  MOVqw R0, R0(+7,+0)
  MOVnw R7, R7
  RET

; ---- EFI_DRIVER_BINDING_PROTOCOL

supported:                ; EFI_STATUS Supported (This, ControllerHandle, RemainingDevicePath)
  MOVqw R0, R0(-1,-0)     ; makes room for the locals: pci
  MOVIqw R5, 0
  MOVnw @R0, R5
  MOVqw R5, R0
  PUSHn R5                ; where the EFI_PCI_IO_PROTOCOL goes
  PUSHn @R0(+3,+16)       ; ControllerHandle
  PUSHn @R0(+3,+16)       ; This
  CALL32 find
  MOVqw R0, R0(+4,+0)
  CMPI64weq R7, 0
  JMP8cc not_supported
  PUSHn @R0(+1,+16)       ; ControllerHandle
  PUSHn @R0(+1,+16)       ; This
  CALL32 close
  MOVqw R0, R0(+2,+0)
  MOVIqw R7, 0
not_supported:
  RET

start:                    ; EFI_STATUS Start (This, ControllerHandle, RemainingDevicePath)
  PUSH64 R1               ; the boot services
  PUSH64 R2               ; the status
  PUSH64 R3               ; the card's EFI_PCI_IO_PROTOCOL
  MOVqw R0, R0(-5,-24)    ; makes room for the locals: attributes, blocks, supports, pci, resource, disk, media, handle
  MOVRELd R4, globals
  MOVnw R1, @R4
  CMPI64weq R1, 0
  JMP32cs start_has_no_table
  MOVIqw R5, 0
  MOVnw @R0(+0,+24), R5   ; pci
  MOVqw R5, R0(+0,+24)
  PUSHn R5                ; where the card's protocol goes
  PUSHn @R0(+7,+64)       ; ControllerHandle
  PUSHn @R0(+7,+64)       ; This
  CALL32 find
  MOVqw R0, R0(+3,+0)
  MOVqw R2, R7
  CMPI64weq R7, 0
  JMP32cc start_ends
  MOVnw R3, @R0(+0,+24)   ; pci
  CMPI64weq R3, 0
  JMP32cs start_unsupported

  MOVqw R5, R0
  PUSHn R5                ; Result
  MOVIqw R5, 0
  PUSH64 R5               ; Attributes
  PUSHn R5                ; Operation: EfiPciIoAttributeOperationGet
  PUSHn R3                ; This
  CALL32EXa @R3(+15,+0)   ; Attributes
  MOVqw R0, R0(+3,+8)
  MOVnw R7, R7
  MOVqw R2, R7
  CMPI64weq R7, 0
  JMP32cc start_closes
  MOVqw R5, R0(+0,+16)
  PUSHn R5                ; Result
  MOVIqw R5, 0
  PUSH64 R5               ; Attributes
  MOVIqw R5, 4
  PUSHn R5                ; Operation: EfiPciIoAttributeOperationSupported
  PUSHn R3
  CALL32EXa @R3(+15,+0)   ; Attributes
  MOVqw R0, R0(+3,+8)
  MOVnw R7, R7
  MOVqw R2, R7
  CMPI64weq R7, 0
  JMP32cc start_closes
  MOVqw R5, @R0(+0,+16)   ; supports
  MOVIqw R6, 512          ; EFI_PCI_IO_ATTRIBUTE_MEMORY
  AND64 R5, R6
  CMPI64weq R5, 0
  JMP32cs start_unsupported
  MOVIqw R5, 0
  PUSHn R5                ; Result
  MOVIqw R5, 512
  PUSH64 R5               ; Attributes: EFI_PCI_IO_ATTRIBUTE_MEMORY
  MOVIqw R5, 2
  PUSHn R5                ; Operation: EfiPciIoAttributeOperationEnable
  PUSHn R3
  CALL32EXa @R3(+15,+0)   ; Attributes
  MOVqw R0, R0(+3,+8)
  MOVnw R7, R7
  MOVqw R2, R7
  CMPI64weq R7, 0
  JMP32cc start_closes
  MOVqw R5, R0(+1,+24)
  PUSHn R5                ; Resources
  MOVIqw R5, 0
  PUSHn R5                ; Supports
  MOVIqw R5, 2
  PUSHn R5                ; BarIndex
  PUSHn R3
  CALL32EXa @R3(+16,+0)   ; GetBarAttributes
  MOVqw R0, R0(+4,+0)
  MOVnw R7, R7
  MOVqw R2, R7
  CMPI64weq R7, 0
  JMP32cc start_restores
  MOVnw R4, @R0(+1,+24)   ; resource
  MOVqw R5, @R4(+0,+38)   ; how many bytes the BAR has
  MOVIqw R6, 9
  SHR64 R5, R6
  MOVqw @R0(+0,+8), R5    ; blocks
  PUSHn R4
  CALL32EXa @R1(+6,+24)   ; FreePool
  MOVqw R0, R0(+1,+0)

  MOVqw R5, R0(+2,+24)
  PUSHn R5                ; Buffer
  MOVInw R5, (+6,+16)     ; the size of a Disk
  PUSHn R5                ; Size
  MOVIqw R5, 4
  PUSHn R5                ; PoolType: EfiBootServicesData
  CALL32EXa @R1(+5,+24)   ; AllocatePool
  MOVqw R0, R0(+3,+0)
  MOVnw R7, R7
  MOVqw R2, R7
  CMPI64weq R7, 0
  JMP32cc start_restores
  MOVqw R5, R0(+3,+24)
  PUSHn R5                ; Buffer
  MOVIqw R5, 48
  PUSHn R5                ; Size: that of an EFI_BLOCK_IO_MEDIA
  MOVIqw R5, 4
  PUSHn R5                ; PoolType
  CALL32EXa @R1(+5,+24)   ; AllocatePool
  MOVqw R0, R0(+3,+0)
  MOVnw R7, R7
  MOVqw R2, R7
  CMPI64weq R7, 0
  JMP32cc start_frees_disk

  MOVnw R5, @R0(+3,+24)   ; media
  MOVIdw @R5, 1           ; MediaId
  MOVIbw @R5(+0,+4), 0    ; RemovableMedia
  MOVIbw @R5(+0,+5), 0    ; MediaPresent
  MOVIbw @R5(+0,+6), 0    ; LogicalPartition
  MOVIbw @R5(+0,+7), 0    ; ReadOnly
  MOVIbw @R5(+0,+8), 0    ; WriteCaching
  MOVIdw @R5(+0,+12), 512 ; BlockSize
  MOVIdw @R5(+0,+16), 4   ; IoAlign
  MOVIqw @R5(+0,+24), 0   ; LastBlock
  MOVqw R6, @R0(+0,+8)    ; blocks
  CMPI64weq R6, 0
  JMP8cs sized
  MOVIbw @R5(+0,+5), 1    ; MediaPresent
  MOVqw R6, R6(-0,-1)
  MOVqw @R5(+0,+24), R6   ; LastBlock
sized:
  MOVnw R4, @R0(+2,+24)   ; disk
  MOVIqd @R4, 0x10000     ; Revision
  MOVnw @R4(+0,+8), R5    ; Media
  MOVRELd R6, reset_cell
  MOVnw R6, @R6
  MOVnw @R4(+1,+8), R6    ; Reset
  MOVRELd R6, read_cell
  MOVnw R6, @R6
  MOVnw @R4(+2,+8), R6    ; ReadBlocks
  MOVRELd R6, write_cell
  MOVnw R6, @R6
  MOVnw @R4(+3,+8), R6    ; WriteBlocks
  MOVRELd R6, flush_cell
  MOVnw R6, @R6
  MOVnw @R4(+4,+8), R6    ; FlushBlocks
  MOVnw @R4(+5,+8), R3    ; the card's EFI_PCI_IO_PROTOCOL
  MOVqw R6, @R0           ; attributes
  MOVqw @R4(+6,+8), R6    ; what `stop` restores
  MOVnw R5, @R0(+6,+64)   ; ControllerHandle
  MOVnw @R0(+4,+24), R5   ; handle
  PUSHn R4                ; Interface
  MOVIqw R5, 0
  PUSHn R5                ; InterfaceType: EFI_NATIVE_INTERFACE
  MOVRELd R5, block_guid
  PUSHn R5                ; Protocol
  MOVqw R5, R0(+7,+24)
  PUSHn R5                ; Handle
  CALL32EXa @R1(+13,+24)  ; InstallProtocolInterface
  MOVqw R0, R0(+4,+0)
  MOVnw R7, R7
  MOVqw R2, R7
  CMPI64weq R7, 0
  JMP32cs start_ends

  PUSHn @R0(+3,+24)       ; media
  CALL32EXa @R1(+6,+24)   ; FreePool
  MOVqw R0, R0(+1,+0)
start_frees_disk:
  PUSHn @R0(+2,+24)       ; disk
  CALL32EXa @R1(+6,+24)   ; FreePool
  MOVqw R0, R0(+1,+0)
start_restores:
  MOVIqw R5, 0
  PUSHn R5                ; Result
  PUSH64 @R0(+1,+0)       ; Attributes
  MOVIqw R5, 1
  PUSHn R5                ; Operation: EfiPciIoAttributeOperationSet
  PUSHn R3
  CALL32EXa @R3(+15,+0)   ; Attributes
  MOVqw R0, R0(+3,+8)
start_closes:
  PUSHn @R0(+6,+64)       ; ControllerHandle
  PUSHn @R0(+6,+64)       ; This
  CALL32 close
  MOVqw R0, R0(+2,+0)
start_ends:
  MOVqw R0, R0(+5,+24)
  MOVqw R7, R2
  POP64 R3
  POP64 R2
  POP64 R1
  RET
start_has_no_table:
  CALL32 unsupported
  MOVqw R2, R7
  JMP8 start_ends
start_unsupported:
  CALL32 unsupported
  MOVqw R2, R7
  JMP8 start_closes

stop:                     ; EFI_STATUS Stop (This, ControllerHandle, NumberOfChildren, ChildHandleBuffer)
  PUSH64 R1               ; the boot services
  PUSH64 R2               ; the disk
  MOVqw R0, R0(-1,-0)     ; makes room for the locals: disk
  MOVRELd R4, globals
  MOVnw R1, @R4
  CMPI64weq R1, 0
  JMP32cs not_stopped
  MOVqw R6, R0
  MOVIqw R5, 2
  PUSHn R5                ; Attributes: GET_PROTOCOL
  PUSHn @R0(+3,+32)       ; ControllerHandle
  MOVnw R5, @R0(+3,+32)   ; This
  PUSHn @R5(+5,+0)        ; AgentHandle: its DriverBindingHandle
  PUSHn R6                ; Interface
  MOVRELd R5, block_guid
  PUSHn R5                ; Protocol
  PUSHn @R0(+7,+32)       ; Handle: the controller
  CALL32EXa @R1(+32,+24)  ; OpenProtocol
  MOVqw R0, R0(+6,+0)
  MOVnw R7, R7
  CMPI64weq R7, 0
  JMP32cc not_stopped
  MOVnw R2, @R0           ; disk
  PUSHn R2                ; Interface
  MOVRELd R5, block_guid
  PUSHn R5                ; Protocol
  PUSHn @R0(+4,+32)       ; Handle
  CALL32EXa @R1(+15,+24)  ; UninstallProtocolInterface
  MOVqw R0, R0(+3,+0)
  MOVnw R7, R7
  CMPI64weq R7, 0
  JMP32cc not_stopped
  MOVIqw R5, 0
  PUSHn R5                ; Result
  PUSH64 @R2(+6,+8)       ; Attributes
  MOVIqw R5, 1
  PUSHn R5                ; Operation: EfiPciIoAttributeOperationSet
  MOVnw R4, @R2(+5,+8)
  PUSHn R4                ; This
  CALL32EXa @R4(+15,+0)   ; Attributes
  MOVqw R0, R0(+3,+8)
  PUSHn @R2(+0,+8)        ; Media
  CALL32EXa @R1(+6,+24)   ; FreePool
  MOVqw R0, R0(+1,+0)
  PUSHn R2
  CALL32EXa @R1(+6,+24)   ; FreePool
  MOVqw R0, R0(+1,+0)
  PUSHn @R0(+2,+32)       ; ControllerHandle
  PUSHn @R0(+2,+32)       ; This
  CALL32 close
  MOVqw R0, R0(+2,+0)
  MOVIqw R7, 0
stop_ends:
  MOVqw R0, R0(+1,+0)
  POP64 R2
  POP64 R1
  RET
not_stopped:
  CALL32 device_error
  JMP8 stop_ends

; ---- EFI_COMPONENT_NAME2_PROTOCOL

driver_name:              ; EFI_STATUS GetDriverName (This, Language, DriverName)
  MOVIqw R6, 2            ; EFI_INVALID_PARAMETER
  MOVnw R4, @R0(+1,+16)   ; Language
  CMPI64weq R4, 0
  JMP8cs no_name
  MOVnw R5, @R0(+2,+16)   ; DriverName
  CMPI64weq R5, 0
  JMP8cs no_name
  MOVIqw R6, 3            ; EFI_UNSUPPORTED
  MOVbw R7, @R4
  CMPI32weq R7, 101       ; e
  JMP8cc no_name
  MOVbw R7, @R4(+0,+1)
  CMPI32weq R7, 110       ; n
  JMP8cc no_name
  MOVbw R7, @R4(+0,+2)
  CMPI32weq R7, 0
  JMP8cc no_name
  MOVRELd R4, name
  MOVnw @R5, R4
  MOVIqw R7, 0
  RET
no_name:
  PUSHn R6
  CALL32 error
  MOVqw R0, R0(+1,+0)
  RET

controller_name:          ; EFI_STATUS GetControllerName (This, ControllerHandle, ChildHandle, Language, ControllerName)
  CALL32 unsupported
  RET

; ---- EFI_BLOCK_IO_PROTOCOL: This is the disk

reset:                    ; EFI_STATUS Reset (This, ExtendedVerification)
  MOVIqw R7, 0
  RET

flush_blocks:             ; EFI_STATUS FlushBlocks (This)
  MOVnw R4, @R0(+0,+16)   ; This
  MOVnw R4, @R4(+0,+8)    ; Media
  MOVbw R5, @R4(+0,+5)    ; MediaPresent
  CMPI64weq R5, 0
  JMP8cs not_flushed
  MOVIqw R7, 0            ; what is written is in the card's memory at once
  RET
not_flushed:
  MOVIqw R6, 12           ; EFI_NO_MEDIA
  PUSHn R6
  CALL32 error
  MOVqw R0, R0(+1,+0)
  RET

read_blocks:              ; EFI_STATUS ReadBlocks (This, MediaId, Lba, BufferSize, Buffer)
  PUSHn @R0(+3,+24)       ; Buffer
  PUSHn @R0(+3,+24)       ; BufferSize
  MOVqw R5, @R0(+4,+16)
  PUSH64 R5               ; Lba
  PUSHn @R0(+3,+24)       ; MediaId
  PUSHn @R0(+3,+24)       ; This
  CALL32 check
  MOVqw R0, R0(+4,+8)
  CMPI64weq R7, 0
  JMP8cc not_read
  MOVnw R5, @R0(+2,+24)   ; BufferSize
  CMPI64weq R5, 0
  JMP8cs not_read
  PUSHn @R0(+3,+24)       ; Buffer
  MOVIqw R6, 2
  SHR64 R5, R6
  PUSHn R5                ; Count
  MOVqw R5, @R0(+4,+16)   ; Lba
  MOVIqw R6, 9
  SHL64 R5, R6
  PUSH64 R5               ; Offset
  MOVIqw R5, 2
  PUSHn R5                ; BarIndex
  PUSHn R5                ; Width: EfiPciIoWidthUint32
  MOVnw R4, @R0(+4,+24)   ; This
  MOVnw R4, @R4(+5,+8)
  PUSHn R4                ; the card's protocol
  CALL32EXa @R4(+2,+0)    ; Mem.Read
  MOVqw R0, R0(+5,+8)
  PUSHn R7
  CALL32 answer
  MOVqw R0, R0(+1,+0)
not_read:
  RET

write_blocks:             ; EFI_STATUS WriteBlocks (This, MediaId, Lba, BufferSize, Buffer)
  PUSHn @R0(+3,+24)       ; Buffer
  PUSHn @R0(+3,+24)       ; BufferSize
  MOVqw R5, @R0(+4,+16)
  PUSH64 R5               ; Lba
  PUSHn @R0(+3,+24)       ; MediaId
  PUSHn @R0(+3,+24)       ; This
  CALL32 check
  MOVqw R0, R0(+4,+8)
  CMPI64weq R7, 0
  JMP8cc not_written
  MOVnw R5, @R0(+2,+24)   ; BufferSize
  CMPI64weq R5, 0
  JMP8cs not_written
  PUSHn @R0(+3,+24)       ; Buffer
  MOVIqw R6, 2
  SHR64 R5, R6
  PUSHn R5                ; Count
  MOVqw R5, @R0(+4,+16)   ; Lba
  MOVIqw R6, 9
  SHL64 R5, R6
  PUSH64 R5               ; Offset
  MOVIqw R5, 2
  PUSHn R5                ; BarIndex
  PUSHn R5                ; Width: EfiPciIoWidthUint32
  MOVnw R4, @R0(+4,+24)   ; This
  MOVnw R4, @R4(+5,+8)
  PUSHn R4                ; the card's protocol
  CALL32EXa @R4(+3,+0)    ; Mem.Write
  MOVqw R0, R0(+5,+8)
  PUSHn R7
  CALL32 answer
  MOVqw R0, R0(+1,+0)
not_written:
  RET

; ---- what they share

check:                    ; whether blocks can be transferred: EFI_STATUS check (This, MediaId, Lba, BufferSize, Buffer)
  MOVnw R4, @R0(+0,+16)   ; This
  MOVnw R4, @R4(+0,+8)    ; Media
  MOVbw R5, @R4(+0,+5)    ; MediaPresent
  MOVIqw R6, 12           ; EFI_NO_MEDIA
  CMPI64weq R5, 0
  JMP8cs wrong
  MOVnw R5, @R0(+1,+16)   ; MediaId, of 32 bits
  MOVdw R7, @R4
  MOVIqw R6, 13           ; EFI_MEDIA_CHANGED
  CMP32eq R5, R7
  JMP8cc wrong
  MOVnw R5, @R0(+3,+24)   ; Buffer
  MOVIqw R6, 2            ; EFI_INVALID_PARAMETER
  CMPI64weq R5, 0
  JMP8cs wrong
  MOVnw R5, @R0(+2,+24)   ; BufferSize
  CMPI64weq R5, 0
  JMP8cs right
  MOVIqw R6, 4            ; EFI_BAD_BUFFER_SIZE
  MOVIqw R7, 511
  AND64 R7, R5
  CMPI64weq R7, 0
  JMP8cc wrong
  MOVIqw R6, 9
  SHR64 R5, R6            ; how many blocks
  MOVIqw R6, 2            ; EFI_INVALID_PARAMETER
  MOVqw R7, @R4(+0,+24)   ; LastBlock
  MOVqw R4, @R0(+2,+16)   ; Lba
  CMP64ulte R4, R7
  JMP8cc wrong
  SUB64 R7, R4            ; how many blocks lie behind the first one
  CMP64ugte R7, R5 -1
  JMP8cc wrong
right:
  MOVIqw R7, 0
  RET
wrong:
  PUSHn R6
  CALL32 error
  MOVqw R0, R0(+1,+0)
  RET

answer:                   ; what a transfer of this status is answered with: EFI_STATUS answer (Status)
  MOVnw R4, @R0(+0,+16)
  CMPI64weq R4, 0
  JMP8cs transferred
  CALL32 unsupported
  MOVnw R4, @R0(+0,+16)
  CMP64eq R4, R7
  JMP8cs not_aligned
  CALL32 device_error
  RET
not_aligned:              ; the range and the BAR are right, so it is the buffer's address
  MOVIqw R6, 2            ; EFI_INVALID_PARAMETER
  PUSHn R6
  CALL32 error
  MOVqw R0, R0(+1,+0)
  RET
transferred:
  MOVIqw R7, 0
  RET

find:                     ; opens the protocol of a card that is ours: EFI_STATUS find (This, ControllerHandle, EFI_PCI_IO_PROTOCOL **Pci)
  PUSH64 R1               ; the boot services
  MOVqw R0, R0(-0,-8)     ; makes room for the locals: id
  MOVRELd R4, globals
  MOVnw R1, @R4
  CMPI64weq R1, 0
  JMP32cs not_found
  MOVIqw R5, 16
  PUSHn R5                ; Attributes: BY_DRIVER
  PUSHn @R0(+2,+32)       ; ControllerHandle
  MOVnw R5, @R0(+2,+32)   ; This
  PUSHn @R5(+5,+0)        ; AgentHandle: its DriverBindingHandle
  PUSHn @R0(+5,+32)       ; Interface: Pci
  MOVRELd R5, pci_guid
  PUSHn R5                ; Protocol
  PUSHn @R0(+6,+32)       ; Handle: the controller
  CALL32EXa @R1(+32,+24)  ; OpenProtocol
  MOVqw R0, R0(+6,+0)
  MOVnw R7, R7
  CMPI64weq R7, 0
  JMP8cc find_ends
  MOVqw R6, R0
  MOVnw R4, @R0(+2,+32)   ; Pci
  MOVnw R4, @R4
  CMPI64weq R4, 0
  JMP8cs other
  PUSHn R6                ; Buffer
  MOVIqw R5, 1
  PUSHn R5                ; Count
  MOVIqw R5, 0
  PUSHn R5                ; Offset: vendor and device
  MOVIqw R5, 2
  PUSHn R5                ; Width: EfiPciIoWidthUint32
  PUSHn R4                ; This
  CALL32EXa @R4(+6,+0)    ; Pci.Read
  MOVqw R0, R0(+5,+0)
  MOVnw R7, R7
  CMPI64weq R7, 0
  JMP8cc other
  MOVdw R4, @R0           ; id
  CMPI32deq R4, 0x11101af4
  JMP8cc other
  MOVIqw R7, 0
find_ends:
  MOVqw R0, R0(+0,+8)
  POP64 R1
  RET
other:
  PUSHn @R0(+1,+32)       ; ControllerHandle
  PUSHn @R0(+1,+32)       ; This
  CALL32 close
  MOVqw R0, R0(+2,+0)
not_found:
  CALL32 unsupported
  JMP8 find_ends

close:                    ; gives a controller's EFI_PCI_IO_PROTOCOL back: close (This, ControllerHandle)
  MOVRELd R4, globals
  MOVnw R4, @R4
  CMPI64weq R4, 0
  JMP8cs not_closed
  PUSHn @R0(+1,+16)       ; ControllerHandle
  MOVnw R5, @R0(+1,+16)   ; This
  PUSHn @R5(+5,+0)        ; AgentHandle
  MOVRELd R5, pci_guid
  PUSHn R5                ; Protocol
  PUSHn @R0(+4,+16)       ; Handle
  CALL32EXa @R4(+33,+24)  ; CloseProtocol
  MOVqw R0, R0(+4,+0)
not_closed:
  RET

unsupported:              ; EFI_UNSUPPORTED
  MOVIqw R6, 3
  PUSHn R6
  CALL32 error
  MOVqw R0, R0(+1,+0)
  RET

device_error:             ; EFI_DEVICE_ERROR
  MOVIqw R6, 7
  PUSHn R6
  CALL32 error
  MOVqw R0, R0(+1,+0)
  RET

error:                    ; an error of this code, at the width of a status
  MOVIqw R7, 1
  MOVInw R6, (+8,+0)      ; eight bits for each byte of a pointer
  SHL64 R7, R6 -1
  MOVnw R6, @R0(+0,+16)
  OR64 R7, R6
  RET
.data
supported_cell: .thunk supported
start_cell: .thunk start
stop_cell: .thunk stop
reset_cell: .thunk reset
read_cell: .thunk read_blocks
write_cell: .thunk write_blocks
flush_cell: .thunk flush_blocks
driver_name_cell: .thunk driver_name
controller_name_cell: .thunk controller_name
globals: .zero 8          ; the boot services
binding: .zero 48         ; EFI_DRIVER_BINDING_PROTOCOL, six natural units
names: .zero 24           ; EFI_COMPONENT_NAME2_PROTOCOL, three natural units
english: .db 101, 110, 0  ; 'en'
  .db 0
name: .dw 83, 104, 97, 114, 101, 100, 45, 109, 101, 109, 111, 114  ; 'Shared-memory disk'
  .dw 121, 32, 100, 105, 115, 107, 0
names_guid: .dd 0x6a7a5cff  ; EFI_COMPONENT_NAME2_PROTOCOL_GUID
  .dw 0xe8d9, 0x4f70
  .db 0xba, 0xda, 0x75, 0xab, 0x30, 0x25, 0xce, 0x14
binding_guid: .dd 0x18a031ab  ; EFI_DRIVER_BINDING_PROTOCOL_GUID
  .dw 0xb443, 0x4d1a
  .db 0xa5, 0xc0, 0x0c, 0x09, 0x26, 0x1e, 0x9f, 0x71
pci_guid: .dd 0x4cf5b200  ; EFI_PCI_IO_PROTOCOL_GUID
  .dw 0x68b8, 0x4ca5
  .db 0x9e, 0xec, 0xb2, 0x3e, 0x3f, 0x50, 0x02, 0x9a
block_guid: .dd 0x964e5b21  ; EFI_BLOCK_IO_PROTOCOL_GUID
  .dw 0x6459, 0x11d2
  .db 0x8e, 0x39, 0x00, 0xa0, 0xc9, 0x69, 0x72, 0x3b
