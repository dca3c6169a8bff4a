# Gives page 200 a write word, and puts what the borrower made of it.
start:  li   $2, 3              # alloc
        li   $4, 200            # this page
        li   $5, 0              # no read word
        li   $6, 0
        li   $7, 0xf00d         # the write word
        li   $8, 0
        syscall
        li   $2, 6              # bind: its owner needs no word
        li   $4, 0x500
        li   $5, 200
        li   $6, 1              # to store to it too
        syscall
        li   $8, 0x00500000
        li   $9, 0x000a6968     # "hi\n"
        sw   $9, 0($8)
again:  li   $2, 0              # yield
        li   $4, -1
        syscall
        lbu  $9, 0($8)
        addiu $9, $9, -72       # `H`
        bne  $9, $0, again
        nop
        li   $2, 1              # put
        move $4, $8
        li   $5, 3
        syscall
stay:   b    stay
        nop
