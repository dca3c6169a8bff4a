# In its third slice it accepts nobody's yields any more. $11 counts slices.
start:  addiu $11, $11, 1
        slti $8, $11, 3
        bne  $8, $0, next
        nop
        ori  $4, $0, 0
        ori  $2, $0, 9          # accept
        syscall
next:   addiu $4, $0, -1
        ori  $2, $0, 0          # yield, to whoever is next
        syscall
        b    start
        nop
