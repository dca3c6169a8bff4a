# Takes the slots 1 and 3, keeps the answers' codes in $16 and $17, and counts in $8.
start:  ori  $2, $0, 11         # take
        ori  $4, $0, 1
        syscall
        or   $16, $2, $0
        ori  $2, $0, 11
        ori  $4, $0, 3
        syscall
        or   $17, $2, $0
count:  addiu $8, $8, 1
        b    count
        nop
