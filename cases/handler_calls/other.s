# Claims the kinds 0x0800 and 0x0806, which are 0 and 1, and yields for ever.
start:  addiu $4, $0, -1
        ori  $2, $0, 3          # alloc: page 6
        syscall
        move $6, $3
        la   $4, kinds
        ori  $5, $0, 1
        ori  $2, $0, 14         # claim
        syscall
        addiu $4, $4, 12
        ori  $2, $0, 14
        syscall
        addiu $4, $0, -1        # to whoever is next
again:  ori  $2, $0, 0          # yield
        syscall
        b    again
        nop
.data
kinds:  .half 12, 2
        .word 0xffff, 0x0800
        .half 12, 2
        .word 0xffff, 0x0806
