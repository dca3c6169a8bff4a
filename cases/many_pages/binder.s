# Binds page 32 by its read word at the VPNs 0x100 to 0x1ff, and yields for ever.
        ori  $9, $0, 0x100
        ori  $5, $0, 32
        ori  $7, $0, 5
loop:   addu $4, $9, $0
        ori  $2, $0, 6          # bind
        syscall
        addiu $9, $9, 1
        sltiu $10, $9, 0x200
        bne  $10, $0, loop
        nop
        addiu $4, $0, -1
yield:  ori  $2, $0, 0
        syscall
        b    yield
        nop
