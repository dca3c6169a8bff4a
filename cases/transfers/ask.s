# Calls environment 1 a hundred times, with 1 to 100 in $16, and prints the sum of what comes back in it.
start:  ori  $2, $0, 8          # context: synchronous transfers enter at back
        ori  $4, $0, 4
        la   $5, back
        syscall
        ori  $16, $0, 1
        ori  $17, $0, 0         # the sum
        ori  $18, $0, 1         # the number
ask:    ori  $2, $0, 9          # accept: environment 1
        ori  $4, $0, 2
        syscall
        ori  $2, $0, 10         # transfer to 1
        ori  $4, $0, 1
        ori  $5, $0, 1
        syscall
        ori  $2, $0, 0          # refused: yield, and once more
        addiu $4, $0, -1
        syscall
        b    ask
        nop
back:   lw   $17, 0x10c0($0)
        lw   $18, 0x10c4($0)
        addu $17, $17, $16
        addiu $18, $18, 1
        slti $8, $18, 101
        bne  $8, $0, ask
        or   $16, $18, $0
        la   $9, text           # its last six digits, from the last one on
        ori  $10, $0, 10
        addiu $11, $9, 6
digit:  divu $17, $10
        mfhi $12
        mflo $17
        addiu $12, $12, 48
        addiu $11, $11, -1
        bne  $11, $9, digit
        sb   $12, 0($11)
        ori  $2, $0, 1          # put
        or   $4, $9, $0
        ori  $5, $0, 6
        syscall
        ori  $2, $0, 2          # exit
        ori  $4, $0, 0
        syscall
.data
text:   .space 6
