# Step 6: a pipe. Puts each byte that writer.s sends, and exits after the line feed.
start:  li   $2, 6              # bind
        li   $4, 0x500
        li   $5, 200
        li   $6, 1              # to store to it too: the tail
        li   $7, 0x22           # the write word
        li   $8, 0
        syscall
        beq  $2, $0, bound
        nop
        li   $2, 0              # not allocated yet: yield, and try again
        li   $4, -1
        syscall
        b    start
        nop
bound:  li   $16, 0x00500000
        li   $17, 0             # the tail
        la   $18, byte
take:   lw   $8, 0($16)         # the head
        beq  $8, $17, empty
        andi $9, $17, 7
        addu $9, $9, $16
        lbu  $19, 8($9)         # the byte first,
        addiu $17, $17, 1
        sw   $17, 4($16)        # and then the tail, by which its place is free again
        sb   $19, 0($18)
        li   $2, 1              # put
        move $4, $18
        li   $5, 1
        syscall
        li   $8, 10             # a line feed
        bne  $19, $8, take
        nop
        li   $2, 2              # exit
        li   $4, 0
        syscall
empty:  li   $2, 0              # yield
        li   $4, -1
        syscall
        b    take
        nop
.data
byte:   .byte 0
