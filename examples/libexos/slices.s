# Where the ends of slices enter, and where threads go on. thread.c has what this calls, and exos.h the words of the context page.
#
# An end comes between any two instructions, but not in grace: so never between an entry here and its yield. After the yield one may
# come anywhere, in a short slice at once. What is restored then is kept whole already, and the way back begins again.
        .set    noreorder
        .set    noat

        .equ    end_26, 0x1050          # the kernel's word: $26 before the end
        .equ    faults, 0x1e04          # how many faults are being handled
        .equ    no_switch, 0x1e08       # threads aren't switched
        .equ    current, 0x1e0c         # the thread that runs
        .equ    go_on, 0x1e14           # where the thread goes on, and its $26
        .equ    go_26, 0x1e18
        .equ    scratch_1, 0x1e1c
        .equ    scratch_27, 0x1e20
        .equ    stay_1, 0x1e24          # what is kept where no thread is switched
        .equ    stay_2, 0x1e28
        .equ    stay_3, 0x1e2c
        .equ    stay_4, 0x1e30
        .equ    stay_26, 0x1e34
        .equ    stay_27, 0x1e38
        .equ    stay_at, 0x1e3c
        .equ    stack_size, 4096        # of exos_fault_stack, which is free where no fault is handled
        .equ    hi, 124                 # struct thread: $N at 4N - 4
        .equ    lo, 128
        .equ    at, 132

        .section .text.exos_upcalls, "ax"
        .globl  exos_end_entry, exos_thread_switch, exos_thread_go

# Goes to a label if the address in $26 lies in a part of this file.
        .macro  if_within from, to, label
        lui     $27, %hi(\from)
        addiu   $27, $27, %lo(\from)
        subu    $27, $26, $27
        sltiu   $27, $27, \to - \from
        bne     $27, $0, \label
        nop
        .endm

exos_end_entry:
        sw      $27, scratch_27($0)
        sw      $1, scratch_1($0)
        if_within go, go_end, yield
        if_within back, back_end, stay_yield
        lui     $27, %hi(exos_critical) # upcall.s
        addiu   $27, $27, %lo(exos_critical)
        sltu    $27, $26, $27
        bne     $27, $0, outside
        lui     $27, %hi(exos_critical_end)
        addiu   $27, $27, %lo(exos_critical_end)
        sltu    $27, $26, $27
        bne     $27, $0, stay
outside:
        if_within exos_end_entry, exos_slices_end, stay
        lw      $1, faults($0)
        lw      $27, no_switch($0)
        or      $1, $1, $27
        bne     $1, $0, stay
        lw      $27, current($0)
        .irp    number, 2, 3, 4, 5, 6, 7, 8, 9, 10, 11, 12, 13, 14, 15, 16, 17, 18, 19, 20, 21, 22, 23, 24, 25, 28, 29, 30, 31
        sw      $\number, 4 * \number - 4($27)
        .endr
        lw      $2, scratch_1($0)
        lw      $3, end_26($0)
        lw      $4, scratch_27($0)
        mfhi    $5
        mflo    $6
        sw      $2, 4 * 1 - 4($27)
        sw      $3, 4 * 26 - 4($27)
        sw      $4, 4 * 27 - 4($27)
        sw      $5, hi($27)
        sw      $6, lo($27)
        sw      $26, at($27)
        lui     $29, %hi(exos_fault_stack + stack_size - 16)
        addiu   $29, $29, %lo(exos_fault_stack + stack_size - 16)
        lui     $28, %hi(_gp)
        jal     exos_slice_ended        # answers the thread that is next
        addiu   $28, $28, %lo(_gp)
        sw      $2, current($0)
yield:  lui     $29, %hi(exos_fault_stack + stack_size - 16)
        addiu   $29, $29, %lo(exos_fault_stack + stack_size - 16)
        lui     $28, %hi(_gp)
        addiu   $28, $28, %lo(_gp)
        ori     $2, $0, 1
        sw      $2, no_switch($0)
        ori     $2, $0, 0
        addiu   $4, $0, -1
        syscall
        jal     exos_slice_started
        nop
# The thread that is current goes on.
exos_thread_go:
go:     sw      $0, no_switch($0)
        lw      $27, current($0)
        lw      $2, hi($27)
        lw      $3, lo($27)
        lw      $4, at($27)
        lw      $5, 4 * 26 - 4($27)
        mthi    $2
        mtlo    $3
        sw      $4, go_on($0)
        sw      $5, go_26($0)
        .irp    number, 1, 2, 3, 4, 5, 6, 7, 8, 9, 10, 11, 12, 13, 14, 15, 16, 17, 18, 19, 20, 21, 22, 23, 24, 25, 28, 29, 30, 31, 27
        lw      $\number, 4 * \number - 4($27)
        .endr
        lw      $26, go_on($0)
        jr      $26
        lw      $26, go_26($0)
go_end:

# No thread is switched: a fault is being handled, or the library is at work.
stay:   lw      $1, scratch_1($0)
        lw      $27, scratch_27($0)
        sw      $1, stay_1($0)
        sw      $27, stay_27($0)
        lw      $1, end_26($0)
        sw      $2, stay_2($0)
        sw      $3, stay_3($0)
        sw      $4, stay_4($0)
        sw      $1, stay_26($0)
        sw      $26, stay_at($0)
stay_yield:
        ori     $2, $0, 0
        addiu   $4, $0, -1
        syscall
back:   lw      $1, stay_1($0)
        lw      $2, stay_2($0)
        lw      $3, stay_3($0)
        lw      $4, stay_4($0)
        lw      $27, stay_27($0)
        lw      $26, stay_at($0)
        jr      $26
        lw      $26, stay_26($0)
back_end:

# void exos_thread_switch(void): the thread keeps what a function keeps, and another goes on.
exos_thread_switch:
        ori     $2, $0, 1
        sw      $2, no_switch($0)
        lw      $2, current($0)
        .irp    number, 16, 17, 18, 19, 20, 21, 22, 23, 28, 29, 30, 31
        sw      $\number, 4 * \number - 4($2)
        .endr
        sw      $31, at($2)
        jal     exos_thread_pick
        addiu   $29, $29, -16
        b       go
        sw      $2, current($0)
exos_slices_end:
