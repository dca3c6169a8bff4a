# Allocates any page, binds it, stores into it and frees it; then the same with the page that any is now.
start:  addiu $4, $0, -1
        ori  $2, $0, 3          # alloc
        syscall
        addu $16, $3, $0
        addu $5, $3, $0
        ori  $2, $0, 6          # bind
        ori  $4, $0, 0x500
        ori  $6, $0, 1
        syscall
        lui  $9, 0x50
        lw   $17, 8($9)
        addiu $8, $0, -1
        sw   $8, 8($9)
        lw   $18, 8($9)
        ori  $2, $0, 4          # free
        addu $4, $16, $0
        syscall
        addiu $4, $0, -1
        ori  $2, $0, 3
        syscall
        addu $19, $3, $0
        addu $5, $3, $0
        ori  $2, $0, 6
        ori  $4, $0, 0x500
        syscall
        lw   $20, 8($9)
stay:   b    stay
        nop
