# Handles starts and ends. At each start it prints the start area; at each end the end area, and yields.
start:  ori  $2, $0, 8          # context: starts are handled at started
        ori  $4, $0, 1
        la   $5, started
        syscall
        ori  $2, $0, 8          # context: ends are handled at ended
        ori  $4, $0, 2
        la   $5, ended
        syscall
        lui  $26, 0x5566
        ori  $26, $26, 0x7788
        nop
loop:   b    loop               # at 0x00400034
        addiu $8, $8, 1         # at 0x00400038
started:
        ori  $2, $0, 1          # put: the start area
        ori  $4, $0, 0x1040
        ori  $5, $0, 8
        syscall
        jr   $26
        lw   $26, 0x1040($0)
ended:  ori  $2, $0, 1          # put: the end area
        ori  $4, $0, 0x1050
        ori  $5, $0, 12
        syscall
        or   $16, $26, $0       # where the program goes on
        lw   $17, 0x1050($0)
        ori  $2, $0, 0          # yield
        addiu $4, $0, -1
        syscall
        jr   $16                # at 0x00400078
        or   $26, $17, $0
