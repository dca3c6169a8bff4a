# Sorts the letters of a word by exchanges, and prints it.
start:  la   $8, word
        li   $9, length
outer:  addiu $9, $9, -1        # so many neighbours are left to compare
        blez $9, print
        addu $10, $8, $0
        addu $11, $9, $0
inner:  lbu  $12, 0($10)
        lbu  $13, 1($10)
        sltu $14, $13, $12
        beq  $14, $0, next
        addiu $11, $11, -1
        sb   $13, 0($10)
        sb   $12, 1($10)
next:   bgtz $11, inner
        addiu $10, $10, 1
        b    outer
        nop
print:  addu $4, $8, $0
        li   $5, length
        li   $2, 1              # put
        syscall
        li   $4, 0
        li   $2, 2              # exit
        syscall
word:   .ascii "exokernel"
.equ    length, 9
