# Calls environment 1 by an asynchronous transfer, and then yields to it, for ever. $9 counts calls that were granted, $10
# those that were refused with 9, and $11 yields to it that were.
start:  ori  $5, $0, 0
again:  ori  $2, $0, 10         # transfer
        ori  $4, $0, 1
        syscall
        sltiu $8, $2, 1
        addu $9, $9, $8
        xori $8, $2, 9
        sltiu $8, $8, 1
        addu $10, $10, $8
        ori  $2, $0, 0          # yield to 1
        syscall
        xori $8, $2, 9
        sltiu $8, $8, 1
        addu $11, $11, $8
        addiu $4, $0, -1
        ori  $2, $0, 0          # yield, to whoever is next
        syscall
        b    again
        nop
