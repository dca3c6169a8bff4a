# Claims all packets, yields, and dies of a break.
start:  addiu $4, $0, -1        # 0
        ori  $2, $0, 3          # alloc
        syscall
        la   $4, all            # 3
        ori  $5, $0, 1
        move $6, $3
        ori  $2, $0, 14         # claim
        syscall                 # 8
        addiu $4, $0, -1
        ori  $2, $0, 0          # yield
        syscall                 # 11
        break                   # 25
.data
all:    .half 0, 1
        .word 0, 0
