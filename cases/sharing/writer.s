# Binds page 6 by its write word, to store; yields; tries both old words and both new ones, the read words to load alone;
# and stores.
        ori  $2, $0, 6          # bind
        ori  $4, $0, 0x500
        ori  $5, $0, 6
        ori  $6, $0, 1
        ori  $7, $0, 9
        syscall
        addu $16, $2, $0
        addiu $4, $0, -1
        ori  $2, $0, 0          # yield
        syscall
        ori  $4, $0, 0x500
        ori  $2, $0, 6
        syscall
        addu $17, $2, $0
        ori  $2, $0, 6
        ori  $6, $0, 0
        ori  $7, $0, 5
        syscall
        addu $18, $2, $0
        ori  $2, $0, 6
        ori  $7, $0, 50
        syscall
        addu $19, $2, $0
        ori  $2, $0, 6
        ori  $6, $0, 1
        syscall
        addu $20, $2, $0
        ori  $2, $0, 6
        ori  $7, $0, 90
        syscall
        addu $21, $2, $0
        lui  $9, 0x50
        ori  $10, $0, 0x444
        sw   $10, 0x100($9)
stay:   b    stay
        nop
