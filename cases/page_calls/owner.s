# Allocates page 4 with the read word 5 and the write word 9, page 5 with the read word 0x100000005 and the write word
# 0x100000000, and page 6 with words 0. Then it yields, for ever.
        ori  $2, $0, 3          # alloc: the page, the read word low and high, the write word low and high
        ori  $4, $0, 4
        ori  $5, $0, 5
        ori  $7, $0, 9
        syscall
        ori  $2, $0, 3
        ori  $4, $0, 5
        ori  $6, $0, 1
        ori  $7, $0, 0
        ori  $8, $0, 1
        syscall
        ori  $2, $0, 3
        ori  $4, $0, 6
        ori  $5, $0, 0
        ori  $6, $0, 0
        ori  $8, $0, 0
        syscall
        addiu $4, $0, -1
loop:   ori  $2, $0, 0          # yield
        syscall
        b    loop
        nop
