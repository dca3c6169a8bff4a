# Takes line 0, yields, and exits with its word of signals.
        ori  $2, $0, 17         # line
        ori  $5, $0, 1          # take
        syscall                 # in tick 2
        addiu $4, $0, -1
        ori  $2, $0, 0          # yield
        syscall                 # 5
        lw   $4, 0x1148($0)     # 15
        ori  $2, $0, 2          # exit
        syscall                 # 17
