# Lends its page for some time, by a word, and then gives it another: from there on nobody else is to store to it. In each of
# its rounds it adds up what it stored, puts a letter of the sum, changes the page, and yields. At last it only yields.
.equ    page, 20                # the page, and the word that is lent. The checker has other numbers in these lines
.equ    word, 0x1234
.equ    until, 600              # the tick from which on it isn't lent
.equ    other, 0x5678
.equ    seed, 5
.equ    rounds, 20

start:  li   $2, 3              # alloc
        li   $4, page
        li   $5, 0
        li   $6, 0
        li   $7, word           # the write word
        li   $8, 0
        syscall
        li   $2, 6              # bind, to store to it
        li   $4, 0x500
        li   $5, page
        li   $6, 1
        syscall
lend:   li   $2, 0              # yield, until it is time
        li   $4, -1
        syscall
        li   $2, 21             # clock
        syscall
        la   $8, until
        sltu $8, $3, $8
        bne  $8, $0, lend
        nop
        li   $2, 5              # recap
        li   $4, page
        li   $5, 0
        li   $6, 0
        li   $7, other
        li   $8, 0
        syscall
        li   $16, 0x500000
        li   $17, rounds
        li   $18, seed
        li   $8, 16             # its words anew
fill:   addiu $8, $8, -1
        sll  $9, $8, 2
        addu $9, $9, $16
        bne  $8, $0, fill
        sw   $18, 0($9)
round:  li   $8, 0              # add up 16 words
        li   $9, 0
        move $10, $16
add:    lw   $11, 0($10)
        addu $9, $9, $11
        addiu $10, $10, 4
        addiu $8, $8, 1
        slti $11, $8, 16
        bne  $11, $0, add
        nop
        andi $8, $17, 15        # change one of them
        sll  $8, $8, 2
        addu $8, $8, $16
        addu $18, $18, $9
        sw   $18, 0($8)
        li   $8, 26
        divu $9, $8
        mfhi $9
        addiu $9, $9, 97
        la   $4, letter
        sb   $9, 0($4)
        li   $2, 1              # put
        li   $5, 1
        syscall
        li   $2, 0              # yield
        li   $4, -1
        syscall
        addiu $17, $17, -1
        bne  $17, $0, round
        nop
rest:   li   $2, 0
        li   $4, -1
        syscall
        b    rest
        nop
.data
letter: .byte 0
