# Has a handler. Binds page 6 by its read word, and yields; then it loads, and the handler tries the old word, and then the
# new one.
.equ    handler, 0x2048
        ori  $2, $0, 8          # context
        ori  $5, $0, handler
        syscall
        ori  $2, $0, 6          # bind
        ori  $4, $0, 0x500
        ori  $5, $0, 6
        ori  $7, $0, 5
        syscall
        addu $16, $2, $0
        addiu $4, $0, -1
        ori  $2, $0, 0          # yield
        syscall
        lui  $9, 0x50
        lw   $17, 0x100($9)     # at 0x2034
        addiu $18, $18, 1
stay:   b    stay
        nop
        nop
        addu $19, $1, $0        # the handler
        addu $20, $26, $0
        addu $21, $27, $0
        ori  $2, $0, 6
        srl  $4, $27, 12
        ori  $5, $0, 6
        ori  $7, $0, 5
        syscall
        addu $22, $2, $0
        ori  $2, $0, 6
        ori  $7, $0, 50
        syscall
        addu $23, $2, $0
        lw   $1, 0x1000($0)
        lw   $27, 0x1008($0)
        jr   $26
        lw   $26, 0x1004($0)
