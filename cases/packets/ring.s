# Claims all packets, gives the ring's page other words, frees it, and allocates it anew. The comments have the ticks.
start:  addiu $4, $0, -1        # 0
        ori  $2, $0, 3          # 1     alloc
        syscall                 # 2
        la   $4, all            # 3
        ori  $5, $0, 1          # 5
        move $6, $3             # 6     the page
        ori  $2, $0, 14         # 7     claim
        syscall                 # 8
        lw   $16, 0x1140($0)    # 9
        move $4, $6             # 10
        ori  $2, $0, 5          # 11    recap
        syscall                 # 12
        lw   $17, 0x1140($0)    # 13
        ori  $2, $0, 4          # 14    free
        syscall                 # 15
        lw   $18, 0x1140($0)    # 16
        ori  $2, $0, 3          # 17    alloc
        syscall                 # 18
        lw   $19, 0x1140($0)    # 19
        la   $4, all            # 20
        ori  $5, $0, 1          # 22
        ori  $2, $0, 14         # 23    claim
        syscall                 # 24
        move $20, $3            # 25    its number
        lw   $21, 0x1140($0)    # 26
        move $4, $20            # 27
        ori  $2, $0, 15         # 28    unclaim
        syscall                 # 29
        lw   $22, 0x1140($0)    # 30
        lw   $23, 0x1144($0)    # 31
.data
all:    .half 0, 1              # a byte, of any value
        .word 0, 0
