# Computes a factorial by recursion on the stack, and prints it in decimal.
start:  li   $4, 10
        jal  factorial
        nop
        la   $8, digits+10      # behind the last digit
        li   $9, 10
        addu $10, $8, $0
digit:  divu $2, $9
        mflo $2
        mfhi $11
        addiu $11, $11, 0x30
        addiu $10, $10, -1
        bne  $2, $0, digit
        sb   $11, 0($10)
        addu $4, $10, $0
        subu $5, $8, $10
        li   $2, 1              # put
        syscall
        li   $4, 0
        li   $2, 2              # exit
        syscall

# $2 = the factorial of $4
factorial:
        bgtz $4, more
        nop
        jr   $31
        ori  $2, $0, 1
more:   addiu $29, $29, -8
        sw   $31, 0($29)
        sw   $4, 4($29)
        jal  factorial
        addiu $4, $4, -1
        lw   $31, 0($29)
        lw   $4, 4($29)
        addiu $29, $29, 8
        multu $2, $4
        mflo $2
        jr   $31
        nop
digits: .space 10
