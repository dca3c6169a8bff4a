# A solution of exercise 3. Environments 1, 2 and 3 call it by synchronous transfers, each with a number in $16, and each gets
# back in $16 the total of all numbers so far. It accepts one client at a time, by turns.
start:  li   $2, 8              # context: synchronous transfers (4) enter at $5
        li   $4, 4
        la   $5, enter
        syscall
open:   la   $8, turn
        lw   $4, 0($8)
        sll  $4, $4, 1          # the next one's bit
        slti $9, $4, 16
        bne  $9, $0, set
        nop
        li   $4, 2              # after the last the first
set:    sw   $4, 0($8)
        li   $2, 9              # accept
        syscall
        li   $2, 0              # yield, to whoever is next
        li   $4, -1
        syscall
        b    open
        nop

enter:  la   $8, total
        lw   $9, 0($8)
        lw   $4, 0x1108($0)     # who calls
        addu $16, $16, $9
        sw   $16, 0($8)
        li   $2, 10             # transfer: back, with the total in $16
        li   $5, 0              # asynchronous
        syscall
# Here it goes on at its next turn. The client's number is still in $4.
        li   $2, 12             # drop: the client's slot is the client's again
        syscall
        b    open
        nop
.data
total:  .word 0
turn:   .word 8
