# Accepts the yields of environment 0, and no others, and counts in $8.
start:  ori  $4, $0, 1
        ori  $2, $0, 9          # accept
        syscall
count:  addiu $8, $8, 1
        b    count
        nop
