# Sets a handler, allocates a page, and stores where none is bound. The handler binds the page there and goes back to the
# store. Mapped at 0x2000.
.equ    handler, 0x2030
        ori  $2, $0, 8          # context
        ori  $4, $0, 0
        ori  $5, $0, handler
        syscall
        ori  $2, $0, 3          # alloc: any
        addiu $4, $0, -1
        syscall
        or   $16, $3, $0
        lui  $9, 0x50
        sw   $9, 4($9)          # at 0x2024
stay:   beq  $0, $0, stay
        nop
        srl  $4, $27, 12        # the handler: the VPN that was missed
        or   $5, $16, $0
        ori  $6, $0, 1
        ori  $2, $0, 6          # bind
        syscall
        lw   $1, 0x1000($0)
        lw   $27, 0x1008($0)
        jr   $26
        lw   $26, 0x1004($0)
