# Holds every page that it gets, and calls for one more.
start:  ori  $2, $0, 3          # alloc: any page
        addiu $4, $0, -1
        syscall
        b    start
        nop
