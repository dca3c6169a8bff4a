# Takes line 1 and yields. Then line 0 is nobody's, and it takes that too.
        ori  $2, $0, 17         # line, in tick 6
        ori  $4, $0, 1
        ori  $5, $0, 1          # take
        syscall                 # 9
        addiu $4, $0, -1
        lw   $16, 0x1148($0)    # 11
        sw   $0, 0x1148($0)
        ori  $2, $0, 0          # yield
        syscall                 # 14
        lw   $17, 0x1148($0)    # 18
        sw   $0, 0x1148($0)
        ori  $2, $0, 17         # line
        ori  $4, $0, 0
        syscall                 # 22
        lw   $18, 0x1148($0)    # 23
        lw   $19, 0x1148($0)
stay:   b    stay
        nop
