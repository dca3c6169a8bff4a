# Allocates the pages 4 to 15, gives way, asks for one more, and gives way for ever. Ticks:
        addiu $4, $0, -1        # 0
        addiu $8, $0, 12        # 1
more:   ori  $2, $0, 3          # 2, 7, 12, .. 57: alloc
        syscall                 # 3, 8, 13, .. 58
        addiu $8, $8, -1
        bne  $8, $0, more
        nop                     # .., 61
        ori  $2, $0, 0          # 62
        syscall                 # 63: yield
        ori  $2, $0, 3          # 75
        syscall                 # 76: there is nobody to ask
        addu $16, $2, $0
        addu $17, $3, $0
yield:  ori  $2, $0, 0
        syscall                 # 78: yield, and then again and again
        b    yield
        nop
