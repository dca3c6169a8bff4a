# Runs two quanta past its slice, and hears in a slice that it is given how much it owes still.
start:  ori  $2, $0, 8          # context: ends of slices are told at late
        ori  $4, $0, 2
        la   $5, late
        syscall
spin:   b    spin
        nop

late:   ori  $18, $0, 70        # of two steps each, in quanta of 64 ticks
more:   bne  $18, $0, more
        addiu $18, $18, -1
        ori  $2, $0, 0          # yield
        addiu $4, $0, -1
        syscall
        ori  $2, $0, 13         # query: its excess
        ori  $4, $0, 7
        syscall
        or   $17, $3, $0
tell:   la   $16, heard         # put: the byte that it heard
        sb   $17, 0($16)
        ori  $2, $0, 1
        or   $4, $16, $0
        ori  $5, $0, 1
        syscall
        ori  $2, $0, 2          # exit
        ori  $4, $0, 0
        syscall

.data
heard:  .byte 0
