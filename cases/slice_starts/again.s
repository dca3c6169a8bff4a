# A handler of starts that takes longer than a slice, and keeps nothing. It loads the start area, and counts its entries.
start:  ori  $2, $0, 8          # context: starts are handled at started
        ori  $4, $0, 1
        la   $5, started
        syscall
        ori  $26, $0, 0x1234
loop:   b    loop               # at 0x00400018
        nop
started:
        lw   $8, 0x1040($0)     # at 0x00400020
        lw   $9, 0x1044($0)
        addiu $16, $16, 1
        ori  $10, $0, 40
wait:   addiu $10, $10, -1      # at 0x00400030
        bne  $10, $0, wait
        nop
        jr   $26
        lw   $26, 0x1040($0)
