# Allocates page 6 with the words 5 and 9; yields; gives it the words 50 and 90; and yields for ever.
        ori  $2, $0, 3          # alloc
        ori  $4, $0, 6
        ori  $5, $0, 5
        ori  $7, $0, 9
        syscall
        addiu $4, $0, -1
        ori  $2, $0, 0          # yield
        syscall
        ori  $2, $0, 5          # recap
        ori  $4, $0, 6
        ori  $5, $0, 50
        ori  $7, $0, 90
        syscall
        addiu $4, $0, -1
loop:   ori  $2, $0, 0
        syscall
        b    loop
        nop
