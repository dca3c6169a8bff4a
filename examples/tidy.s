# Adds up the numbers from 1 to 100, and exits with 0 if the sum is right. It gives way at the end of each slice.
start:  li   $2, 8              # context: ends (2) are handled at $5
        li   $4, 2
        la   $5, ended
        syscall
        li   $2, 0              # a number, and their sum, in registers that the handler uses too
        li   $3, 0
loop:   addiu $2, $2, 1
        addu $3, $3, $2
        slti $4, $2, 100
        bne  $4, $0, loop
        nop
        li   $4, 5050
        subu $4, $4, $3
        li   $2, 2              # exit
        syscall

# Where the program goes on is in $26; what it had there is at 0x1050. The handler keeps all that it changes.
ended:  addiu $29, $29, -20
        sw   $2, 0($29)
        sw   $3, 4($29)
        sw   $4, 8($29)
        sw   $26, 12($29)       # where the program goes on
        lw   $26, 0x1050($0)    # $26 as it was
        sw   $26, 16($29)
        li   $2, 0              # yield, to whoever is next
        li   $4, -1
        syscall
        lw   $2, 0($29)
        lw   $3, 4($29)
        lw   $4, 8($29)
        lw   $26, 12($29)
        addiu $29, $29, 20
        jr   $26
        lw   $26, -4($29)       # runs before the jump is over
