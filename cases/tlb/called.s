# Has one entry for transfers of both kinds, on its second page, and yields in tick 10. When it is called it gives the slice back.
start:  ori  $4, $0, 3
        la   $5, enter
        ori  $2, $0, 8
        syscall
        ori  $4, $0, 4
        ori  $2, $0, 8
        syscall
        addiu $4, $0, -1
        ori  $2, $0, 0
        syscall
        .align 12
enter:  ori  $4, $0, 1
        ori  $5, $0, 0
        ori  $2, $0, 10
        syscall
