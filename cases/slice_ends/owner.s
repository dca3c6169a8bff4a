# Allocates page 10 with the read word 5, and yields. Then it stays, in its own time and in grace.
start:  ori  $2, $0, 3          # alloc
        ori  $4, $0, 10
        ori  $5, $0, 5
        syscall
        ori  $2, $0, 8          # context: ends are handled at stay
        ori  $4, $0, 2
        la   $5, stay
        syscall
        ori  $2, $0, 0          # yield
        addiu $4, $0, -1
        syscall
stay:   b    stay
        nop
