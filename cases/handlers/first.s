# The handler's first instruction is a syscall, and the exception comes in a delay slot.
start:  la   $5, handler
        ori  $2, $0, 8
        syscall
        ori  $2, $0, 21         # clock, which the handler asks
        b    next
        lw   $8, 1($0)
next:   nop
handler:
        syscall
stay:   b    stay
        nop
