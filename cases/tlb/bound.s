# Allocates page 2 for nobody else, binds it at VPN 0x500, and loads from it in tick 9.
start:  addiu $4, $0, -1
        ori  $2, $0, 3
        syscall
        ori  $4, $0, 0x500
        or   $5, $3, $0
        ori  $6, $0, 1
        ori  $2, $0, 6
        syscall
        lui  $9, 0x50
        lw   $10, 0($9)
