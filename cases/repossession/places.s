# Allocates the pages 2 to 9, and puts other numbers where takings are counted. Each instruction is a tick.
        addiu $4, $0, -1        # 0
        ori  $16, $0, 8
next:   ori  $2, $0, 3          # 2, 7 .. 37    alloc
        syscall
        addiu $16, $16, -1
        bne  $16, $0, next
        nop                     # 41
        addiu $8, $0, -1        # 42
        sw   $8, 0x117c($0)     # 43
        lw   $16, 0x117c($0)    # 44    one was taken in this tick
        lw   $17, 0x1180($0)    # 45    and one in this
        lw   $18, 0x117c($0)    # 46
        ori  $8, $0, 63
        sw   $8, 0x117c($0)     # 48
        lw   $19, 0x1378($0)    # 49    two were taken in this tick
        lw   $20, 0x1380($0)
        lw   $21, 0x117c($0)    # 51
        sw   $0, 0x117c($0)     # 52
        lw   $22, 0x1180($0)    # 53    one was taken in this tick
        lw   $23, 0x117c($0)    # 54
stay:   b    stay
        nop
