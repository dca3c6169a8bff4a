# Sets a handler, and none again.
start:  la   $5, handler
        ori  $2, $0, 8
        syscall
        ori  $2, $0, 8
        ori  $5, $0, 0
        syscall
        break
handler: b   handler
        nop
