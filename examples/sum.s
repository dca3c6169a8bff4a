# Adds up 1 to 10 in a function, and prints the sum in decimal by another.
start:  li   $4, 10
        jal  sum
        nop                     # runs before the jump
        move $4, $2
        jal  print
        nop
        li   $4, 0
        li   $2, 2              # exit
        syscall

# The sum of 1 to $4, in $2.
sum:    move $2, $0
again:  addu $2, $2, $4
        addiu $4, $4, -1
        bgtz $4, again
        nop
        jr   $31
        nop

# Puts the number in $4 on the console, and a line feed after it. The digits are made from the last one on.
print:  la   $5, end
        li   $8, 10
digit:  divu $4, $8
        mflo $4                 # what is left
        mfhi $9                 # the last digit
        addiu $9, $9, 48
        addiu $5, $5, -1
        bne  $4, $0, digit
        sb   $9, 0($5)          # runs before the branch
        move $4, $5             # put: from the first digit on
        la   $5, end+1
        subu $5, $5, $4
        li   $2, 1
        syscall
        jr   $31
        nop
.data
        .space 10
end:    .ascii "\n"
