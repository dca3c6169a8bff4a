# Calls to a server that a client trusts with its registers, as procedures of one program are trusted: the server keeps what a function
# keeps, by the compiler's own rules, and so the client's entry restores nothing but what leads back. The server has one client, whom it
# trusts with $28 and its stack likewise. examples/c/calls.s has calls to servers that a client trusts with its time alone.
        .set    noreorder

        .equ    answer_of, 0x1e48       # this library's words of the context page: the server's function, its stack, its client
        .equ    stack_top, 0x1e4c
        .equ    client_bit, 0x1e50
        .equ    entry_29, 0x10f0        # and the kernel's
        .equ    entry_31, 0x10f8
        .equ    entry_caller, 0x1108
        .equ    call_yield, 0
        .equ    call_accept, 9
        .equ    call_transfer, 10
        .equ    synchronous, 1
        .equ    not_accepted, 9

# unsigned rpc_ask_trusted(unsigned server, unsigned argument): the answer. A call, its answer and the return take 37 ticks with a
# square and a loop; an accept and a transfer by each side. rpc_open_trusted names the entry before.
        .section .text.rpc_ask_trusted, "ax"
        .globl  rpc_ask_trusted, rpc_answered
rpc_ask_trusted:
        addu    $6, $5, $0
        addu    $7, $4, $0
again:  ori     $4, $0, 1
        sllv    $4, $4, $7
        ori     $2, $0, call_accept
        syscall
        addu    $4, $7, $0
        ori     $5, $0, synchronous
        ori     $2, $0, call_transfer
        syscall
        ori     $2, $0, call_yield      # the server isn't open, or it is dead and nobody answers any more
        addiu   $4, $0, -1
        syscall
        b       again
        nop
rpc_answered:
        lw      $29, entry_29($0)
        lw      $31, entry_31($0)
        addu    $2, $6, $0
        jr      $31
        nop

# A call enters, with the argument in $6. The client is accepted before it is answered: there is nobody else.
        .section .text.rpc_called, "ax"
        .globl  rpc_called
rpc_called:
        lw      $29, stack_top($0)
        lw      $2, answer_of($0)
        jalr    $2
        addu    $4, $6, $0
        addu    $6, $2, $0
        lw      $4, client_bit($0)
        ori     $2, $0, call_accept
        syscall
        lw      $4, entry_caller($0)
        ori     $5, $0, synchronous
        ori     $2, $0, call_transfer
        syscall
wait:   ori     $2, $0, call_yield
        addiu   $4, $0, -1
        syscall
        b       wait
        nop
