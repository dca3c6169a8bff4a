# Prints what examples/teller.s tells: in each slice the letter whose code is how many pages are gone since it began.
start:  li   $2, 13             # query: how many pages are free (0)
        li   $4, 0
        syscall
        addu $16, $3, $0        # before anything is told
        la   $17, heard
listen: li   $2, 0              # yield, to whoever is next
        li   $4, -1
        syscall
        li   $2, 13
        li   $4, 0
        syscall
        subu $8, $16, $3
        beq  $8, $0, over
        sb   $8, 0($17)
        li   $2, 1              # put: the letter
        addu $4, $17, $0
        li   $5, 1
        syscall
        b    listen
        nop
over:   li   $2, 2              # exit
        li   $4, 0
        syscall

.data
heard:  .byte 0
