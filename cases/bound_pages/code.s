# Writes an instruction into a page, binds the page without a right to store, and runs it: it goes back.
start:  addiu $4, $0, -1
        ori  $2, $0, 3          # alloc
        syscall
        addu $5, $3, $0
        ori  $2, $0, 6          # bind
        ori  $4, $0, 0x500
        ori  $6, $0, 1
        syscall
        lui  $9, 0x50
        lui  $8, 0x03e0         # jr $31
        ori  $8, $8, 8
        sw   $8, 0($9)
        lui  $8, 0x2610         # addiu $16,$16,7
        ori  $8, $8, 7
        sw   $8, 4($9)
        ori  $2, $0, 6
        ori  $4, $0, 0x501
        ori  $6, $0, 0
        syscall
        lui  $9, 0x50
        ori  $9, $9, 0x1000
        jalr $31, $9
        addiu $16, $0, 1
stay:   b    stay
        nop
