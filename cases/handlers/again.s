# The handler raises an exception itself, the first time that it runs.
start:  la   $5, handler
        ori  $2, $0, 8
        syscall
        break
handler:
        addiu $20, $20, 1
        ori  $21, $0, 2
        beq  $20, $21, second
        nop
        lw   $8, 1($0)
second: lw   $8, 0x1000($0)
        lw   $9, 0x1004($0)
        lw   $10, 0x1008($0)
        lw   $11, 0x100c($0)
        lw   $12, 0x1010($0)
        lw   $13, 0x1014($0)
stay:   b    stay
        nop
