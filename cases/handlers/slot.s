# A store in the delay slot of a branch that links. The handler allocates a page, binds it where it was missed, and goes
# back to the branch, the restoring load in its jump's own slot.
start:  la   $5, handler
        ori  $2, $0, 8
        syscall
        lui  $9, 0x50
        lui  $31, 0x8000
        bltzal $31, there       # at 0x00400018
        sw   $9, 8($9)
        nop
there:  lw   $10, 8($9)
stay:   b    stay
        nop
handler:
        addiu $20, $20, 1
        ori  $2, $0, 3          # alloc
        addiu $4, $0, -1
        ori  $5, $0, 0
        syscall
        ori  $2, $0, 6          # bind, with the page that was allocated
        srl  $4, $27, 12
        addu $5, $3, $0
        ori  $6, $0, 1
        syscall
        lw   $1, 0x1000($0)
        lw   $27, 0x1008($0)
        jr   $26
        lw   $26, 0x1004($0)
