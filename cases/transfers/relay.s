# Environment 0 has the others prepare themselves in two slices, and calls 1 in a third. Each of them calls the next one,
# with the registers in which it was called. All calls are asynchronous.
start:  ori  $2, $0, 20         # self
        syscall
        bne  $3, $0, other
        nop
        ori  $4, $0, 1
        ori  $2, $0, 0          # yield to 1
        syscall
        ori  $4, $0, 2
        ori  $2, $0, 0          # yield to 2
        syscall
        ori  $4, $0, 1
        ori  $5, $0, 0
        ori  $2, $0, 10         # transfer to 1
        syscall
count:  addiu $8, $8, 1
        b    count
        nop
other:  ori  $2, $0, 8          # context: asynchronous transfers enter at entered
        ori  $4, $0, 3
        la   $5, entered
        syscall
        ori  $2, $0, 0          # yield, to whoever is next
        addiu $4, $0, -1
        syscall
stay:   b    stay
        nop
entered:
        addiu $4, $4, 1
        syscall
        b    count
        nop
