# Binds page 200 by its write word, puts what it finds, and stores there.
start:  li   $2, 6              # bind
        li   $4, 0x500
        li   $5, 200
        li   $6, 1              # to store to it too
        li   $7, 0xf00d         # the word that is presented
        li   $8, 0
        syscall
        beq  $2, $0, bound
        nop
        li   $2, 0              # not allocated yet: yield, and try again
        li   $4, -1
        syscall
        b    start
        nop
bound:  li   $2, 1              # put
        li   $4, 0x00500000
        li   $5, 3
        syscall
        li   $8, 0x00500000
        li   $9, 72             # `H`
        sb   $9, 0($8)
        li   $2, 2              # exit
        li   $4, 0
        syscall
