# Handles starts, and takes the handler away in its second slice.
start:  ori  $2, $0, 8          # context: starts are handled at started
        ori  $4, $0, 1
        la   $5, started
        syscall
loop:   b    loop               # at 0x00400014
        nop
started:
        ori  $2, $0, 8          # context: starts aren't handled
        ori  $4, $0, 1
        ori  $5, $0, 0
        syscall
        addiu $16, $16, 1
        jr   $26
        lw   $26, 0x1040($0)
