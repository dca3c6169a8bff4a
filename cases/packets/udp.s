# Claims packets of the kind 0x0800, the protocol 0x11 and a port, which is 0x35 for environment 0 and 0x36 for 1; 2 asks for no
# port. Then it looks at the lengths in its ring and at the post words, again and again, and changes nothing.
start:  ori  $2, $0, 20         # self
        syscall
        la   $8, filter
        addiu $9, $3, 0x35
        sw   $9, 32($8)         # the port
        ori  $23, $0, 3         # atoms
        slti $9, $3, 2
        bne  $9, $0, alloc
        nop
        ori  $23, $0, 2
alloc:  addiu $4, $0, -1
        ori  $2, $0, 3          # alloc
        syscall
        move $24, $3            # the page
        ori  $2, $0, 6          # bind, to read it
        ori  $4, $0, 0x500
        move $5, $24
        syscall
        ori  $2, $0, 14         # claim
        move $4, $8
        move $5, $23
        move $6, $24
        syscall
        move $16, $2
        move $17, $3
        lui  $22, 0x50
look:   lw   $18, 0($22)
        lw   $19, 0x800($22)
        lw   $20, 0x1140($0)
        lw   $21, 0x1144($0)
        b    look
        nop
.data
filter: .half 12, 2
        .word 0xffff, 0x0800
        .half 23, 1
        .word 0xff, 0x11
        .half 36, 2
        .word 0xffff, 0
