# Binds page 6 by its write word, loads and stores; yields, and stores again.
        ori  $2, $0, 6          # bind
        ori  $4, $0, 0x500
        ori  $5, $0, 6
        ori  $6, $0, 1
        ori  $7, $0, 9
        syscall
        lui  $9, 0x50
        lw   $16, 0($9)
        ori  $10, $0, 0x222
        sw   $10, 4($9)
        addiu $4, $0, -1
        ori  $2, $0, 0          # yield
        syscall
        sw   $10, 8($9)          # at 0x2034
