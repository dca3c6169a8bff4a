# Allocates page 6 with the read word 5 and the write word 9, binds it, and stores; loads what another has stored; gives
# the page the same words again; and loads once more. It yields before each load.
        ori  $2, $0, 3          # alloc
        ori  $4, $0, 6
        ori  $5, $0, 5
        ori  $7, $0, 9
        syscall
        ori  $2, $0, 6          # bind
        ori  $4, $0, 0x500
        ori  $5, $0, 6
        ori  $6, $0, 1
        ori  $7, $0, 0
        syscall
        lui  $9, 0x50
        ori  $10, $0, 0x111
        sw   $10, 0($9)
        addiu $4, $0, -1
        ori  $2, $0, 0          # yield
        syscall
        lw   $16, 4($9)
        ori  $2, $0, 5          # recap
        ori  $4, $0, 6
        ori  $5, $0, 5
        ori  $6, $0, 0
        ori  $7, $0, 9
        syscall
        addu $17, $2, $0
        addiu $4, $0, -1
        ori  $2, $0, 0
        syscall
        lw   $18, 4($9)
stay:   b    stay
        nop
