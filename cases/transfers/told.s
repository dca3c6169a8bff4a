# Both environments handle starts. Environment 0 calls 1 by an asynchronous transfer.
start:  ori  $2, $0, 8          # context: starts are handled at started
        ori  $4, $0, 1
        la   $5, started
        syscall
        ori  $2, $0, 20         # self
        syscall
        beq  $3, $0, caller
        nop
        ori  $2, $0, 8          # context: asynchronous transfers enter at entered
        ori  $4, $0, 3
        la   $5, entered
        syscall
        ori  $2, $0, 0          # yield
        addiu $4, $0, -1
        syscall
stay:   b    stay
        nop
entered:
        ori  $8, $0, 7          # at 0x0040004c
        b    entered
        nop
caller: ori  $26, $0, 0x1234
        ori  $2, $0, 10         # transfer to 1
        ori  $4, $0, 1
        ori  $5, $0, 0
        syscall
hold:   b    hold               # at 0x0040006c
        nop
started:
        lw   $16, 0x1040($0)    # at 0x00400074
        lw   $17, 0x1044($0)
        jr   $26
        lw   $26, 0x1040($0)
