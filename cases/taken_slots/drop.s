# Drops the slot in which it runs, and counts in $8.
start:  ori  $2, $0, 12         # drop
        ori  $4, $0, 0
        syscall
count:  addiu $8, $8, 1
        b    count
        nop
