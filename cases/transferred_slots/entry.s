# Has asynchronous transfers enter at back, which counts in $9, and calls environment 1 by a synchronous one, again and again
# until it is granted. Then it counts in $8.
start:  ori  $2, $0, 8          # context: asynchronous transfers enter at back
        ori  $4, $0, 3
        la   $5, back
        syscall
        ori  $5, $0, 1
again:  ori  $2, $0, 10         # transfer to 1
        ori  $4, $0, 1
        syscall
        beq  $2, $0, count
        nop
        ori  $2, $0, 0          # yield
        addiu $4, $0, -1
        syscall
        b    again
        nop
count:  addiu $8, $8, 1
        b    count
        nop
back:   addiu $9, $9, 1
        b    back
        nop
