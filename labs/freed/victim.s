# From tick 1,000 on it has the lowest free page. In each of its rounds it adds up words of it, at both places at which a ring
# has packets, puts a letter of the sum, changes the page, and yields. At last it only yields.
.equ    ready, 1000             # the checker has other numbers in these two lines
.equ    seed, 5
.equ    rounds, 20

start:  li   $2, 0              # yield, until it is time
        li   $4, -1
        syscall
        li   $2, 21             # clock
        syscall
        la   $8, ready
        sltu $8, $3, $8
        bne  $8, $0, start
        nop
        li   $2, 3              # alloc: the lowest free page, without words
        li   $4, -1
        li   $5, 0
        li   $6, 0
        li   $7, 0
        li   $8, 0
        syscall
        move $5, $3
        li   $2, 6              # bind, to store to it
        li   $4, 0x500
        li   $6, 1
        syscall
        li   $16, 0x500000
        li   $17, rounds
        li   $18, seed
round:  li   $8, 0              # add up 8 words, and 8 of the second half
        li   $9, 0
        move $10, $16
add:    lw   $11, 0($10)
        lw   $12, 0x800($10)
        addu $9, $9, $11
        addu $9, $9, $12
        addiu $10, $10, 4
        addiu $8, $8, 1
        slti $11, $8, 8
        bne  $11, $0, add
        nop
        addu $18, $18, $9
        sw   $18, 0x20($16)
        li   $8, 26
        divu $9, $8
        mfhi $9
        addiu $9, $9, 97
        la   $4, letter
        sb   $9, 0($4)
        li   $2, 1              # put
        li   $5, 1
        syscall
        li   $2, 0              # yield
        li   $4, -1
        syscall
        addiu $17, $17, -1
        bne  $17, $0, round
        nop
rest:   li   $2, 0
        li   $4, -1
        syscall
        b    rest
        nop
.data
letter: .byte 0
