# Counts to 40, and exits with that.
start:  addiu $16, $16, 1
        addiu $17, $17, 2
        addiu $8, $16, -40
        bne  $8, $0, start
        nop
        move $4, $16
        li   $2, 2              # exit
        syscall
