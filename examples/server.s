# A server. It hands out tickets, 1, 2, 3 and so on, to whoever calls it. So each ticket goes to one client alone, and no client
# can write the number from which they are counted.
#
# A call is a synchronous transfer: the client's slot is the server's until it gives it back, and so it works in the client's
# time. The answer is an asynchronous one, of the rest of the slice alone. For if the server was stopped on the way, it goes on
# in whichever of its slots comes next, and a synchronous answer would hand on that slot, which may be its own.
#
# An entry leaves the mask 0, and nobody else gets in until it accepts again. It answers first. At its next turn, for which it
# has its own slot, it gives the client's slot back and accepts. If it accepted before it answered, and were stopped
# between the two, another client's registers would take the place of those in which the answer is.
.equ    clients, 0x6            # environments 1 and 2, each of which has the slot with its number

start:  li   $2, 8              # context: synchronous transfers (4) enter at $5
        li   $4, 4
        la   $5, enter
        syscall
open:   li   $4, clients
next:   li   $2, 9              # accept: the calls of those in $4
        syscall
        li   $2, 0              # yield, to whoever is next
        li   $4, -1
        syscall
        b    open
        nop

# All registers are the client's here, and free to use: none of the server's own is needed.
enter:  la   $8, last
        lw   $16, 0($8)
        lw   $4, 0x1108($0)     # who calls
        addiu $16, $16, 1
        sw   $16, 0($8)
        li   $2, 10             # transfer: back, with the ticket in $16
        li   $5, 0              # asynchronous
        syscall

# Here it goes on at its next turn. The client's number is still in $4.
        li   $2, 12             # drop: the client's slot is the client's again
        syscall
        li   $8, 1              # accept the others; all of them only at the turn after that
        sllv $8, $8, $4
        li   $4, clients
        xor  $4, $4, $8
        b    next
        nop
.data
last:   .word 0
