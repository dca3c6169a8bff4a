# Allocates page 32 with the read word 5, and binds it at the VPNs 0x100 to 0x1ff; yields; gives it the same word
# again; and exits.
        ori  $2, $0, 3          # alloc
        ori  $4, $0, 32
        ori  $5, $0, 5
        syscall
        ori  $9, $0, 0x100
        ori  $5, $0, 32
loop:   addu $4, $9, $0
        ori  $2, $0, 6          # bind
        syscall
        addiu $9, $9, 1
        sltiu $10, $9, 0x200
        bne  $10, $0, loop
        nop
        addiu $4, $0, -1
        ori  $2, $0, 0          # yield
        syscall
        ori  $2, $0, 5          # recap
        ori  $4, $0, 32
        ori  $5, $0, 5
        syscall
        ori  $2, $0, 2          # exit
        syscall
