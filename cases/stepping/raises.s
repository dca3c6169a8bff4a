start:  li   $4, 0              # exceptions
        la   $5, caught
        li   $2, 8              # context
        syscall
        break
        nop
caught: addiu $26, $26, 4
        jr   $26
        nop
