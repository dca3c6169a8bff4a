# Handles ends. The last tick of its first slice is a yield, and that of its second one the end of itself.
start:  la   $5, ended
        ori  $4, $0, 2
        ori  $2, $0, 8          # context: ends are handled at ended
        syscall
        nop
        nop
        nop
        nop
        nop
        nop
        nop
        nop
        addiu $4, $0, -1
        ori  $2, $0, 0          # yield
        syscall
        nop
        nop
        nop
        nop
        nop
        nop
        nop
        nop
        nop
        nop
        nop
        nop
        nop
        ori  $4, $0, 3
        ori  $2, $0, 2          # exit
        syscall
ended:  b    ended
        nop
