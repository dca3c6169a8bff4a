# Asks for a page twice and yields. Then it asks until it has one, and waits. Ticks:
        addiu $4, $0, -1        # 64
        ori  $2, $0, 3          # 65: alloc
        syscall                 # 66
        addu $16, $2, $0
        addu $17, $3, $0
        ori  $2, $0, 3          # 69
        syscall                 # 70
        addu $18, $2, $0
        addu $19, $3, $0
        ori  $2, $0, 0          # 73
        syscall                 # 74: yield
more:   ori  $2, $0, 3          # 93, 97
        syscall                 # 94, 98
        bne  $2, $0, more
        nop
        addu $20, $2, $0
        addu $21, $3, $0
stay:   b    stay
        nop
