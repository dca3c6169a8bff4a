# Counts how often the ring was full, and exits with that.
start:  li   $2, 3              # alloc
        li   $4, 200
        li   $5, 0              # no read word
        li   $6, 0
        li   $7, 0x22           # the write word
        li   $8, 0
        syscall
        li   $2, 6              # bind
        li   $4, 0x500
        li   $5, 200
        li   $6, 1
        syscall
        li   $16, 0x00500000
        li   $17, 0             # the head
        la   $18, text          # the next byte
        li   $19, 20            # how many there are
send:   lw   $8, 4($16)         # the tail
        subu $8, $17, $8        # bytes in the ring
        addiu $8, $8, -8
        beq  $8, $0, full
        andi $9, $17, 7
        addu $9, $9, $16
        lbu  $10, 0($18)
        addiu $18, $18, 1
        sb   $10, 8($9)         # the byte first,
        addiu $17, $17, 1
        sw   $17, 0($16)        # and then the head, by which the reader sees it
        bne  $17, $19, send
        nop
drain:  lw   $8, 4($16)         # the page goes with its owner: wait for the reader
        beq  $8, $17, leave
        nop
        li   $2, 0              # yield
        li   $4, -1
        syscall
        b    drain
        nop
full:   addiu $20, $20, 1
        li   $2, 0              # yield
        li   $4, -1
        syscall
        b    send
        nop
leave:  li   $2, 2              # exit
        move $4, $20
        syscall
.data
text:   .ascii "through eight bytes\n"
