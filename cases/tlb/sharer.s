# Binds page 4 at VPN 0x500 by the read word 5, loads from it in its eighth tick, and yields for ever.
start:  ori  $4, $0, 0x500
        ori  $5, $0, 4
        ori  $6, $0, 0
        ori  $7, $0, 5
        ori  $2, $0, 6
        syscall
        lui  $9, 0x50
        lw   $10, 0($9)
yield:  addiu $4, $0, -1
        ori  $2, $0, 0
        syscall
        b    yield
        nop
