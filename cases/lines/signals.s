# Takes line 5, and for a while line 3, and reads the word of signals. Each instruction is a tick.
        ori  $2, $0, 17         # 0     line
        ori  $4, $0, 5
        ori  $5, $0, 1          # 2     take
        syscall
        lw   $16, 0x1148($0)    # 4
        lw   $17, 0x1148($0)
        sw   $0, 0x1148($0)     # 6
        lw   $18, 0x1148($0)
        ori  $2, $0, 17         # 8     line
        ori  $4, $0, 3
        syscall                 # 10    take
        lw   $19, 0x1148($0)
        ori  $2, $0, 17         # 12    line
        ori  $5, $0, 0
        syscall                 # 14    drop
        lw   $20, 0x1148($0)
        sw   $0, 0x1148($0)     # 16
        lw   $21, 0x1148($0)
        lw   $22, 0x1148($0)    # 18
