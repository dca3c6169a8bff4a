# The sixteenth instruction, with which the slice ends, raises an exception.
start:  la   $5, handler
        ori  $2, $0, 8
        syscall
        nop
        nop
        nop
        nop
        nop
        nop
        nop
        nop
        nop
        nop
        nop
        break
handler:
        ori  $8, $0, 1
stay:   b    stay
        nop
