# A solution of exercise 9. The page's row is used in each slice; the recap empties it, so that the next store is a miss.
.equ    page, 20                # the page, and the word that is lent. The checker has other numbers in these two lines
.equ    word, 0x1234

start:  li   $2, 8              # context: exceptions
        li   $4, 0
        la   $5, missed
        syscall
bind:   li   $2, 6              # bind, to store to it
        li   $4, 0x500
        li   $5, page
        li   $6, 1
        li   $7, word
        li   $8, 0
        syscall
        beq  $2, $0, use
        nop
        li   $2, 0              # it isn't there yet
        li   $4, -1
        syscall
        b    bind
        nop
use:    li   $8, 0x500000
        sw   $8, 0x20($8)
        li   $2, 0              # yield
        li   $4, -1
        syscall
        b    use
        nop
missed: li   $2, 6              # bind, by the word that was lent
        li   $4, 0x500
        li   $5, page
        li   $6, 1
        li   $7, word
        li   $8, 0
        syscall
        move $20, $2            # the answer, to be looked at
rest:   li   $2, 0
        li   $4, -1
        syscall
        b    rest
        nop
