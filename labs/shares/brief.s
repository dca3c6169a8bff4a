# Counts in $8, and exits.
.equ    most, 1000
start:  addiu $8, $8, 1
        slti $9, $8, most
        bne  $9, $0, start
        nop
        li   $2, 2              # exit
        li   $4, 0
        syscall
