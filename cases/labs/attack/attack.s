# A solution of exercise 6. The victim, environment 0, allocates its page after the guaranteed pages were given: so of all pages
# that are the victim's this is the one with the highest number.
start:  li   $2, 13             # query: 1, how many pages there are
        li   $4, 1
        syscall
        move $16, $3
find:   addiu $16, $16, -1
        bltz $16, rest          # it has none
        nop
        li   $2, 13             # query: 5, whose page is $5?
        li   $4, 5
        move $5, $16
        syscall
        bne  $3, $0, find
        nop

        li   $2, 6              # bind: at a place of this program's, to read it, with a guess at the word
        li   $4, 0x700
        move $5, $16
        li   $6, 0
        li   $7, 1
        li   $8, 0
        syscall
        move $20, $2            # the answers, to be looked at
        li   $2, 6              # bind, to store to it
        li   $6, 1
        syscall
        move $21, $2
        li   $2, 4              # free
        move $4, $16
        syscall
        move $22, $2
        li   $2, 10             # transfer, asynchronous
        li   $4, 0
        li   $5, 0
        syscall
        move $23, $2
rest:   li   $2, 0              # yield, for ever
        li   $4, -1
        syscall
        b    rest
        nop
