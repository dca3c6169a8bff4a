# Allocates any page until there is none, and binds each at its own number and 0x1000; the stripe has 256 rows.
        addiu $16, $0, -1
loop:   addu $4, $16, $0
        addu $8, $0, $0
        ori  $2, $0, 3          # alloc
        syscall
        bne  $2, $0, stay
        addu $17, $17, $3       # the sum of the numbers
        addu $5, $3, $0
        ori  $4, $3, 0x1000
        ori  $2, $0, 6          # bind
        syscall
        addiu $18, $18, 1       # how many
        b    loop
        addu $5, $0, $0
stay:   b    stay
        nop
