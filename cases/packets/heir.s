# Claims all packets, is refused, yields, and claims them once more.
start:  addiu $4, $0, -1        # 12
        ori  $2, $0, 3          # alloc
        syscall
        la   $4, all            # 15
        ori  $5, $0, 1
        move $6, $3
        ori  $2, $0, 14         # claim
        syscall                 # 20
        move $16, $2
        addiu $4, $0, -1
        ori  $2, $0, 0          # yield
        syscall                 # 24
        la   $4, all            # 26
        ori  $2, $0, 14         # claim
        syscall                 # 29
        move $17, $2
        move $18, $3
        lw   $19, 0x1140($0)    # 32
.data
all:    .half 0, 1
        .word 0, 0
