# Allocates page 12 with the write word 9, claims all packets into it, and yields. It doesn't bind the page.
start:  ori  $4, $0, 12         # 0
        ori  $7, $0, 9          # the write word
        ori  $2, $0, 3          # alloc
        syscall
        la   $4, all            # 4
        ori  $5, $0, 1
        ori  $6, $0, 12
        ori  $2, $0, 14         # claim
        syscall                 # 9
        addiu $4, $0, -1
again:  ori  $2, $0, 0          # yield
        syscall                 # 12
        b    again
        nop
.data
all:    .half 0, 1
        .word 0, 0
