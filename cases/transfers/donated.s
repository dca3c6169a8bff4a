# Prepares an entry for asynchronous transfers, and calls environment 2 by a synchronous and by an asynchronous one, whose
# answers it keeps in $16 and $17. At its entry it does the same again.
start:  ori  $2, $0, 8          # context: asynchronous transfers enter at call
        ori  $4, $0, 3
        la   $5, call
        syscall
call:   ori  $2, $0, 10         # transfer to 2
        ori  $4, $0, 2
        ori  $5, $0, 1          # synchronous
        syscall
        or   $16, $2, $0
        ori  $2, $0, 10         # transfer to 2
        ori  $5, $0, 0          # asynchronous
        syscall
        or   $17, $2, $0
stay:   b    stay
        nop
