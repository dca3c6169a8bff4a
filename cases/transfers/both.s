# Has transfers of both kinds enter at entered, and ends of slices be handled at ended.
start:  ori  $2, $0, 8          # context: asynchronous transfers
        ori  $4, $0, 3
        la   $5, entered
        syscall
        ori  $2, $0, 8          # context: synchronous transfers
        ori  $4, $0, 4
        syscall
        ori  $2, $0, 8          # context: ends
        ori  $4, $0, 2
        la   $5, ended
        syscall
        ori  $2, $0, 0          # yield
        addiu $4, $0, -1
        syscall
stay:   b    stay               # at 0x00400040
        nop
entered:
        b    entered            # at 0x00400048
        nop
ended:  lw   $8, 0x1050($0)     # at 0x00400050
        lw   $9, 0x1054($0)
        lw   $10, 0x1058($0)
        lw   $11, 0x1104($0)
        ori  $2, $0, 10         # transfer to 0, which accepts it
        ori  $4, $0, 0
        ori  $5, $0, 0
        syscall
        or   $12, $2, $0
        ori  $2, $0, 0          # yield
        addiu $4, $0, -1
        syscall
        b    entered
        nop
