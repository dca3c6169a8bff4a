# Yields to 1, again and again, and keeps in $9 how often it was granted, and in $10 how often it was refused with 9.
start:  ori  $4, $0, 1
again:  ori  $2, $0, 0          # yield to 1
        syscall
        sltiu $8, $2, 1
        addu $9, $9, $8
        xori $8, $2, 9
        sltiu $8, $8, 1
        addu $10, $10, $8
        b    again
        nop
