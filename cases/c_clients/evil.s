# A client of bank.c that pays 1,000 into another's account, or tries to. Its $28 is 4 below the server's, where the server would find
# the account of the client before it; then it is 0, where the server would find nothing, as it would by the stack pointer. It exits
# with what the last answer says its account has.
.equ call_yield,        0
.equ call_exit,         2
.equ call_context,      8
.equ call_accept,       9
.equ call_transfer,     10
.equ kind_asynchronous, 3       # the entry for the answer
.equ synchronous,       1
.equ server,            0
.equ server_bit,        1
.equ amount,            1000
.equ below,             0x0040962c      # 4 below $28 of bank.elf, as it begins

start:  li   $2, call_context
        li   $4, kind_asynchronous
        la   $5, next
        syscall
        nop

next:   la   $8, place          # all registers are the server's here: the next lie is in memory
        lw   $9, 0($8)
        la   $10, lies_end
        beq  $9, $10, leave
        addiu $10, $9, 8
        sw   $10, 0($8)
        lw   $28, 0($9)
        lw   $29, 4($9)
ask:    li   $2, call_accept
        li   $4, server_bit
        syscall
        li   $2, call_transfer
        li   $4, server
        li   $5, synchronous
        li   $6, amount
        syscall
        li   $2, call_yield     # the server isn't open
        li   $4, -1
        syscall
        b    ask
        nop

leave:  li   $2, call_exit
        move $4, $6
        syscall

.data
place:  .word lies
lies:   .word below, 0x00401f00        # the account before its own; a stack in the server's data
        .word below, 0x00401f00
        .word 0, 0                      # nothing at all
lies_end:
