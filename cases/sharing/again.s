# Binds page 6 by its write word, loads and stores; yields, binds it again, and stores.
        ori  $2, $0, 6          # bind
        ori  $4, $0, 0x500
        ori  $5, $0, 6
        ori  $6, $0, 1
        ori  $7, $0, 9
        syscall
        lui  $9, 0x50
        ori  $10, $0, 0x222
        sw   $10, 4($9)
        addiu $4, $0, -1
        ori  $2, $0, 0          # yield
        syscall
        ori  $2, $0, 7          # unbind: there is nothing to unbind any more
        ori  $4, $0, 0x500
        syscall
        addu $16, $3, $0
        ori  $2, $0, 6
        syscall
        addu $17, $2, $0
        ori  $10, $0, 0x333
        sw   $10, 4($9)
stay:   b    stay
        nop
