# A handler where no page is: each fetch of its first instruction is an exception too.
start:  lui  $5, 0x50
        ori  $2, $0, 8
        syscall
        break
