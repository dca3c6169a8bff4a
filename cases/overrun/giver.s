# Gives each of its slices to another environment: to 2, then 3, and so on up to 13, and then each for itself.
start:  ori  $16, $0, 2
next:   addu $4, $16, $0
        ori  $2, $0, 0          # yield to it
        syscall
        addiu $16, $16, 1
        sltiu $8, $16, 14
        bne  $8, $0, next
        nop
rest:   b    rest
        nop
