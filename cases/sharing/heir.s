# Binds page 6 by its read word and loads; yields, and unbinds it; allocates it, binds it and loads; and allocates any page
# three times, binds the second of these and loads its first word.
        ori  $2, $0, 6          # bind
        ori  $4, $0, 0x500
        ori  $5, $0, 6
        ori  $7, $0, 5
        syscall
        lui  $9, 0x50
        lw   $16, 0($9)
        addiu $4, $0, -1
        ori  $2, $0, 0          # yield
        syscall
        ori  $2, $0, 7          # unbind
        ori  $4, $0, 0x500
        syscall
        addu $17, $3, $0
        ori  $2, $0, 3          # alloc
        ori  $4, $0, 6
        syscall
        addu $18, $2, $0
        ori  $2, $0, 6
        ori  $4, $0, 0x500
        ori  $5, $0, 6
        syscall
        lw   $19, 0($9)
        addiu $4, $0, -1
        ori  $2, $0, 3
        syscall
        addu $20, $3, $0
        ori  $2, $0, 3
        syscall
        addu $21, $3, $0
        addu $5, $3, $0
        ori  $2, $0, 6
        ori  $4, $0, 0x501
        syscall
        lw   $22, 0x1000($9)
        addiu $4, $0, -1
        ori  $2, $0, 3
        syscall
        addu $23, $3, $0
stay:   b    stay
        nop
