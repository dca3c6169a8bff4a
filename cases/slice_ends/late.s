# Sets its handler of ends in the last tick of its slice, and takes it away in grace.
start:  nop
        nop
        nop
        nop
        nop
        nop
        nop
        nop
        nop
        nop
        la   $5, ended
        ori  $4, $0, 2
        ori  $2, $0, 8          # context: ends are handled at ended
        nop
        syscall
stay:   b    stay
        nop
ended:  ori  $2, $0, 8          # context: ends aren't handled
        ori  $5, $0, 0
        syscall
hold:   b    hold
        nop
