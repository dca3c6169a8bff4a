# Runs on its second page, with an entry for asynchronous transfers. It is about to call environment 0, in its ninth tick.
        .space 4096
start:  la   $5, back
        ori  $4, $0, 3
        ori  $2, $0, 8
        syscall
        ori  $4, $0, 0
        ori  $2, $0, 10
