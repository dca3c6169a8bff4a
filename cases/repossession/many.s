# Allocates 70 pages, 2 to 71.
        ori  $16, $0, 70
next:   addiu $4, $0, -1
        ori  $2, $0, 3          # alloc
        syscall
        addiu $16, $16, -1
        bne  $16, $0, next
        nop
stay:   b    stay
        nop
