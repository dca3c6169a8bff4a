# Allocates page 4, which has the read word 5, binds it at VPN 0x500, loads from it in tick 10, and yields in tick 13.
start:  addiu $4, $0, -1
        ori  $5, $0, 5
        ori  $2, $0, 3
        syscall
        ori  $4, $0, 0x500
        or   $5, $3, $0
        ori  $6, $0, 1
        ori  $2, $0, 6
        syscall
        lui  $9, 0x50
        lw   $10, 0($9)
        addiu $4, $0, -1
        ori  $2, $0, 0
        syscall
