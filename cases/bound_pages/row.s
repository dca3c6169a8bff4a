# Binds its page at two VPNs of one row, and loads through the second and then through the first.
start:  addiu $4, $0, -1
        ori  $2, $0, 3          # alloc
        syscall
        addu $5, $3, $0
        ori  $6, $0, 1
        ori  $2, $0, 6          # bind
        ori  $4, $0, 0x500
        syscall
        addu $16, $2, $0
        lui  $9, 0x50
        sw   $9, 0($9)
        ori  $2, $0, 6
        ori  $4, $0, 0x600
        syscall
        addu $17, $2, $0
        lui  $10, 0x60
        lw   $18, 0($10)
        lw   $19, 0($9)         # at 0x2044
