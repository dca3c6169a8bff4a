# A solution of exercise 4, by strides. Each environment has a pass, and the next slice goes to the one whose pass is the lowest.
# Its pass rises by its stride, which is the less the greater its share is.
.equ    share1, 3
.equ    share2, 2
.equ    share3, 1

start:  la   $16, shares        # the strides: 1,000,000 by the share
        la   $17, strides
        li   $8, 3
        li   $9, 1000000
divide: lw   $10, 0($16)
        divu $9, $10
        mflo $10
        sw   $10, 0($17)
        addiu $16, $16, 4
        addiu $17, $17, 4
        addiu $8, $8, -1
        bne  $8, $0, divide
        nop

next:   la   $16, passes        # the lowest pass, of those that aren't dead
        ori  $4, $0, 0
        addiu $8, $0, -1
        ori  $9, $0, 1
look:   lw   $10, 0($16)
        sltu $11, $10, $8
        beq  $11, $0, higher
        nop
        move $8, $10
        move $4, $9
        move $17, $16
higher: addiu $9, $9, 1
        slti $10, $9, 4
        bne  $10, $0, look
        addiu $16, $16, 4
        beq  $4, $0, over
        lw   $9, 12($17)        # its stride
        addu $8, $8, $9
        sw   $8, 0($17)
        li   $2, 0              # yield to it
        syscall
        beq  $2, $0, next
        nop
        li   $8, -1             # refused: it is dead, and never the lowest again
        sw   $8, 0($17)
        b    next
        nop
over:   li   $2, 2              # exit
        li   $4, 0
        syscall
.data
shares: .word share1, share2, share3
passes: .word 0, 0, 0
strides: .word 0, 0, 0
