# Where exceptions enter. upcall.c has what this calls.
#
# Only $26 and $27 are free here, which compilers leave to handlers. Words of the context page are in reach of $0. If a slice ends in
# this file, no thread is switched (slices.s).
        .set    noreorder
        .set    noat

        .equ    kept_1, 0x1000          # the kernel's words at an exception
        .equ    kept_26, 0x1004
        .equ    kept_27, 0x1008
        .equ    resume, 0x100c
        .equ    bad_address, 0x1010
        .equ    cause, 0x1014
        .equ    faults, 0x1e04          # this library's words: how many faults are being handled
        .equ    on_at, 0x1e40           # where the program goes on, and its $26
        .equ    on_26, 0x1e44

        .equ    stack_size, 4096
        .equ    frame, 128              # struct exos_frame

        .section .text.exos_upcalls, "ax"
        .globl  exos_fault_entry, exos_critical, exos_critical_end
exos_critical:

# An exception. The handler in C runs on a stack of its own, since the program's may be what ran out; a fault in the handler goes on
# below it. Where that stack has no room, nobody handles exceptions any more, and the next one is the program's death.
exos_fault_entry:
        lui     $26, %hi(exos_fault_stack)
        addiu   $26, $26, %lo(exos_fault_stack)
        subu    $27, $29, $26
        sltiu   $27, $27, stack_size + 1
        bne     $27, $0, below
        addu    $27, $29, $0
        addiu   $27, $26, stack_size
below:  addiu   $27, $27, -frame
        addiu   $26, $26, 1024          # what the handler's own calls may take
        sltu    $26, $27, $26
        bne     $26, $0, no_room
        sw      $29, 88($27)
        addu    $29, $27, $0
        .irp    number, 2, 3, 4, 5, 6, 7, 8, 9, 10, 11, 12, 13, 14, 15
        sw      $\number, 12 + 4 * \number($29)
        .endr
        sw      $24, 76($29)
        sw      $25, 80($29)
        sw      $28, 84($29)
        sw      $31, 92($29)
        mfhi    $2
        mflo    $3
        lw      $4, kept_1($0)
        lw      $5, kept_26($0)
        lw      $6, kept_27($0)
        lw      $7, resume($0)
        lw      $8, cause($0)
        lw      $9, bad_address($0)
        lw      $10, faults($0)
        sw      $2, 96($29)
        sw      $3, 100($29)
        sw      $4, 16($29)
        sw      $5, 116($29)
        sw      $6, 120($29)
        sw      $7, 104($29)
        sw      $8, 108($29)
        sw      $9, 112($29)
        addiu   $10, $10, 1
        sw      $10, faults($0)
        lui     $28, %hi(_gp)
        addiu   $28, $28, %lo(_gp)
        jal     exos_fault
        addu    $4, $29, $0
        lw      $2, 96($29)
        lw      $3, 100($29)
        lw      $4, faults($0)
        mthi    $2
        mtlo    $3
        addiu   $4, $4, -1
        sw      $4, faults($0)
        lw      $5, 116($29)
        lw      $6, 104($29)
        sw      $5, on_26($0)
        sw      $6, on_at($0)
        .irp    number, 1, 2, 3, 4, 5, 6, 7, 8, 9, 10, 11, 12, 13, 14, 15
        lw      $\number, 12 + 4 * \number($29)
        .endr
        lw      $24, 76($29)
        lw      $25, 80($29)
        lw      $28, 84($29)
        lw      $31, 92($29)
        lw      $27, 120($29)
        lw      $26, on_at($0)
        lw      $29, 88($29)
        jr      $26
        lw      $26, on_26($0)
no_room:
        ori     $2, $0, 8               # context
        ori     $4, $0, 0               # of exceptions
        ori     $5, $0, 0
        syscall
        lw      $26, resume($0)
        jr      $26
        nop
exos_critical_end:
