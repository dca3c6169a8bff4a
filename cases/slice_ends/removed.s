# Sets a handler of ends, and none again in the last tick of its slice.
start:  la   $5, ended
        ori  $4, $0, 2
        ori  $2, $0, 8          # context: ends are handled at ended
        syscall
        nop
        nop
        nop
        nop
        nop
        nop
        nop
        nop
        ori  $5, $0, 0
        ori  $2, $0, 8          # context: ends aren't handled
        syscall
stay:   b    stay
        nop
ended:  b    ended
        nop
