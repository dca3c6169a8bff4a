# Calls environment 1 with 5 in $16, and exits with what comes back in it.
start:  ori  $2, $0, 8          # context: synchronous transfers enter at back
        ori  $4, $0, 4
        la   $5, back
        syscall
        ori  $16, $0, 5
        ori  $2, $0, 10         # transfer to 1
        ori  $4, $0, 1
        ori  $5, $0, 1
        syscall
hold:   b    hold
        nop
back:   or   $4, $16, $0
        ori  $2, $0, 2          # exit
        syscall
