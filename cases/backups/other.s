# Allocates the pages 101 and 102, whose read and write words are 5 and 9, loads 102, and yields for ever.
        ori  $4, $0, 101
        ori  $5, $0, 5
        ori  $7, $0, 9
        ori  $2, $0, 3          # alloc
        syscall
        ori  $4, $0, 102
        ori  $2, $0, 3
        syscall
        ori  $2, $0, 18         # backup
        syscall
        addiu $4, $0, -1        # to whoever is next
again:  ori  $2, $0, 0          # yield
        syscall
        b    again
        nop
