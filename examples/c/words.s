# Calls between environments with eight words each way, in $8 to $15; else as calls.s, which says more. A call keeps in $24 the
# server, and in $25 where its words stand.
        .set    noreorder

# The context page: serving.h has the words of the upper half, docs/KERNEL.md the kernel's
        .equ    answer_of, 0x1f00
        .equ    entry_named, 0x1f04
        .equ    stack_top, 0x1f08
        .equ    slot_of, 0x1f20
        .equ    entry_16, 0x10bc
        .equ    entry_17, 0x10c0
        .equ    entry_18, 0x10c4
        .equ    entry_19, 0x10c8
        .equ    entry_20, 0x10cc
        .equ    entry_21, 0x10d0
        .equ    entry_22, 0x10d4
        .equ    entry_23, 0x10d8
        .equ    entry_25, 0x10e0
        .equ    entry_28, 0x10ec
        .equ    entry_29, 0x10f0
        .equ    entry_30, 0x10f4
        .equ    entry_31, 0x10f8
        .equ    entry_caller, 0x1108

# Calls of the kernel, and answers
        .equ    call_yield, 0
        .equ    call_context, 8
        .equ    call_accept, 9
        .equ    call_transfer, 10
        .equ    call_drop, 12
        .equ    call_query, 13
        .equ    asynchronous, 3         # an entry
        .equ    is_dead, 8              # a question
        .equ    not_accepted, 9
        .equ    not_holder, 12

# The words at an address.
        .macro  load_words address
        lw      $8, 0(\address)
        lw      $9, 4(\address)
        lw      $10, 8(\address)
        lw      $11, 12(\address)
        lw      $12, 16(\address)
        lw      $13, 20(\address)
        lw      $14, 24(\address)
        lw      $15, 28(\address)
        .endm

        .macro  store_words address
        sw      $8, 0(\address)
        sw      $9, 4(\address)
        sw      $10, 8(\address)
        sw      $11, 12(\address)
        sw      $12, 16(\address)
        sw      $13, 20(\address)
        sw      $14, 24(\address)
        sw      $15, 28(\address)
        .endm

# unsigned aegis_ask_words(unsigned server, unsigned words[AEGIS_WORDS]): the code.
        .section .text.aegis_ask_words, "ax"
        .globl  aegis_ask_words
aegis_ask_words:
        addu    $24, $4, $0
        addu    $25, $5, $0
        lw      $2, entry_named($0)
        ori     $3, $0, 2
        bne     $2, $3, name
        nop
call:   ori     $4, $0, 1               # an entry leaves the mask 0, so it accepts the server before each call
        sllv    $4, $4, $24
        ori     $2, $0, call_accept
        syscall
        load_words $25
        addu    $4, $24, $0
        ori     $5, $0, 1               # synchronous
        ori     $2, $0, call_transfer
        syscall
        beq     $2, $0, wait            # granted, and yet it runs here
        ori     $3, $0, not_accepted
        beq     $2, $3, later           # the server isn't open, or it is at work
        ori     $3, $0, not_holder
        bne     $2, $3, return          # not that the server has this one's slot
        nop
later:  addiu   $4, $0, -1
        ori     $2, $0, call_yield
        syscall
        b       call
        nop
return: jr      $31
        nop
# The answer comes to the entry, wherever in this loop the client stands.
wait:   ori     $4, $0, is_dead
        addu    $5, $24, $0
        ori     $2, $0, call_query
        syscall
        bne     $3, $0, return
        addiu   $2, $0, -1              # AEGIS_NO_ANSWER
        addiu   $4, $0, -1
        ori     $2, $0, call_yield
        syscall
        b       wait
        nop
name:   sw      $3, entry_named($0)
        ori     $4, $0, asynchronous
        lui     $5, %hi(answered)
        addiu   $5, $5, %lo(answered)
        ori     $2, $0, call_context
        syscall
        b       call
        nop

# A client's entry: what a function keeps is in the entry area, and so is where the answer's words go.
answered:
        lw      $16, entry_16($0)
        lw      $17, entry_17($0)
        lw      $18, entry_18($0)
        lw      $19, entry_19($0)
        lw      $20, entry_20($0)
        lw      $21, entry_21($0)
        lw      $22, entry_22($0)
        lw      $23, entry_23($0)
        lw      $25, entry_25($0)
        lw      $28, entry_28($0)
        lw      $29, entry_29($0)
        lw      $30, entry_30($0)
        lw      $31, entry_31($0)
        store_words $25
        jr      $31
        ori     $2, $0, 0

# A server's entry, where $28 and $29 are the client's, as all registers.
        .section .text.aegis_words_entered, "ax"
        .globl  aegis_words_entered
aegis_words_entered:
        lw      $28, entry_28($0)
        lw      $29, stack_top($0)
        lw      $16, entry_caller($0)
        lui     $17, %hi(aegis_words)
        addiu   $17, $17, %lo(aegis_words)
        store_words $17
        lw      $8, answer_of($0)
        addu    $5, $17, $0
        jalr    $8
        addu    $4, $16, $0
        lb      $4, slot_of($16)
        ori     $2, $0, call_drop
        bltz    $4, look
        nop
        syscall
        bne     $2, $0, look
        nop
give:   ori     $4, $0, 1
        sllv    $4, $4, $16
        ori     $2, $0, call_accept
        syscall
        load_words $17
        addu    $4, $16, $0
        ori     $5, $0, 0               # asynchronous
        ori     $2, $0, call_transfer
        syscall
        j       aegis_answered_to
        addu    $4, $16, $0
look:   jal     aegis_give_back
        addu    $4, $16, $0
        b       give
        nop
