# Has a page of its own. In each of its rounds it adds up what it stored there, puts a letter of the sum, changes the page, and
# yields. At last it only yields.
.equ    low, 0x1234             # the page's words. The checker has other numbers in these three lines
.equ    high, 0x5678
.equ    seed, 5
.equ    rounds, 20

start:  li   $2, 3              # alloc: the lowest free page
        li   $4, -1
        li   $5, low            # the read word
        li   $6, high
        li   $7, high           # the write word
        li   $8, low
        syscall
        bne  $2, $0, failed
        move $5, $3
        li   $2, 6              # bind, to store to it
        li   $4, 0x500
        li   $6, 1
        syscall
        li   $16, 0x500000
        li   $17, rounds
        li   $18, seed
        sw   $18, 0($16)
round:  li   $8, 0              # add up 16 words
        li   $9, 0
        move $10, $16
add:    lw   $11, 0($10)
        addu $9, $9, $11
        addiu $10, $10, 4
        addiu $8, $8, 1
        slti $11, $8, 16
        bne  $11, $0, add
        nop
        andi $8, $17, 15        # change one of them
        sll  $8, $8, 2
        addu $8, $8, $16
        addu $18, $18, $9
        sw   $18, 0($8)
        li   $8, 26
        divu $9, $8
        mfhi $9
        addiu $9, $9, 97
        la   $4, letter
        sb   $9, 0($4)
        li   $2, 1              # put
        li   $5, 1
        syscall
        li   $2, 0              # yield
        li   $4, -1
        syscall
        addiu $17, $17, -1
        bne  $17, $0, round
        nop
rest:   li   $2, 0
        li   $4, -1
        syscall
        b    rest
        nop
failed: li   $2, 2              # exit with 1: it has no page
        li   $4, 1
        syscall
.data
letter: .byte 0
