# Calls between environments with a word each way, in $6. calls.c has what runs seldom, and says who holds which slot when.
        .set    noreorder

# The context page: serving.h has the words of the upper half, docs/KERNEL.md the kernel's
        .equ    answer_of, 0x1f00
        .equ    entry_named, 0x1f04
        .equ    stack_top, 0x1f08
        .equ    slot_of, 0x1f20
        .equ    entry_8, 0x109c
        .equ    entry_16, 0x10bc
        .equ    entry_17, 0x10c0
        .equ    entry_18, 0x10c4
        .equ    entry_19, 0x10c8
        .equ    entry_20, 0x10cc
        .equ    entry_21, 0x10d0
        .equ    entry_22, 0x10d4
        .equ    entry_23, 0x10d8
        .equ    entry_28, 0x10ec
        .equ    entry_29, 0x10f0
        .equ    entry_30, 0x10f4
        .equ    entry_31, 0x10f8
        .equ    entry_caller, 0x1108

# Calls of the kernel, and answers
        .equ    call_yield, 0
        .equ    call_context, 8
        .equ    call_accept, 9
        .equ    call_transfer, 10
        .equ    call_drop, 12
        .equ    call_query, 13
        .equ    asynchronous, 3         # an entry
        .equ    is_dead, 8              # a question
        .equ    not_accepted, 9
        .equ    not_holder, 12

# struct aegis_answer aegis_ask(unsigned server, unsigned argument): the answer goes to where $4 says, the server is in $5, the
# argument in $6. From here to its return a call keeps in $8 where the answer goes, in $9 the server, and 1 in $10.
        .section .text.aegis_ask, "ax"
        .globl  aegis_ask
aegis_ask:
        ori     $10, $0, 1
        lw      $2, entry_named($0)
        addu    $8, $4, $0
        bne     $2, $10, name
        addu    $9, $5, $0
call:   sllv    $4, $10, $9             # an entry leaves the mask 0, so it accepts the server before each call
        ori     $2, $0, call_accept
        syscall
        addu    $4, $9, $0
        addu    $5, $10, $0             # synchronous
        ori     $2, $0, call_transfer
        syscall
        beq     $2, $0, wait            # granted, and yet it runs here
        ori     $3, $0, not_accepted
        beq     $2, $3, later           # the server isn't open, or it is at work
        ori     $3, $0, not_holder
        beq     $2, $3, later           # the server has this one's slot
        addu    $3, $0, $0
return: sw      $2, 0($8)
        sw      $3, 4($8)
        jr      $31
        addu    $2, $8, $0
later:  addiu   $4, $0, -1
        ori     $2, $0, call_yield
        syscall
        b       call
        nop
# The answer comes to the entry, wherever in this loop the client stands.
wait:   ori     $4, $0, is_dead
        addu    $5, $9, $0
        ori     $2, $0, call_query
        syscall
        bne     $3, $0, return
        addiu   $2, $0, -1              # AEGIS_NO_ANSWER
        addiu   $4, $0, -1
        ori     $2, $0, call_yield
        syscall
        b       wait
        nop
name:   sw      $10, entry_named($0)
        ori     $4, $0, asynchronous
        lui     $5, %hi(answered)
        addiu   $5, $5, %lo(answered)
        ori     $2, $0, call_context
        syscall
        b       call
        nop

# A client's entry. All registers are the server's. What a function keeps is in the entry area, as it stood in aegis_ask, and so
# is the place where the answer goes. This is aegis_ask's return.
answered:
        lw      $16, entry_16($0)
        lw      $17, entry_17($0)
        lw      $18, entry_18($0)
        lw      $19, entry_19($0)
        lw      $20, entry_20($0)
        lw      $21, entry_21($0)
        lw      $22, entry_22($0)
        lw      $23, entry_23($0)
        lw      $28, entry_28($0)
        lw      $29, entry_29($0)
        lw      $30, entry_30($0)
        lw      $31, entry_31($0)
        lw      $2, entry_8($0)
        sw      $6, 4($2)
        jr      $31
        sw      $0, 0($2)

# A server's entry. All registers are the client's, which may have put anything there: into the stack pointer and into $28, by which
# small data is found, too. The server's own $28 is in the entry area. Its stack begins anew, since it waited for a call, and nothing
# that is on it is needed. It keeps the client in $16.
        .section .text.aegis_called, "ax"
        .globl  aegis_called
aegis_called:
        lw      $28, entry_28($0)
        lw      $29, stack_top($0)
        lw      $8, answer_of($0)
        lw      $16, entry_caller($0)
        addu    $5, $6, $0
        jalr    $8
        addu    $4, $16, $0
        lb      $4, slot_of($16)
        addu    $6, $2, $0
        bltz    $4, look
        ori     $2, $0, call_drop
        syscall
        bne     $2, $0, look
        ori     $8, $0, 1
give:   sllv    $4, $8, $16
        ori     $2, $0, call_accept
        syscall
        addu    $4, $16, $0
        ori     $5, $0, 0               # asynchronous
        ori     $2, $0, call_transfer
        syscall
        j       aegis_answered_to
        addu    $4, $16, $0
look:   addu    $17, $6, $0
        jal     aegis_give_back
        addu    $4, $16, $0
        addu    $6, $17, $0
        b       give
        ori     $8, $0, 1
