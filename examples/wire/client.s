# A client of the name server (names.s has the frames): it finds the server, enters its own name, asks for another's until
# that is entered too, prints where it is, and exits.
.equ    you, 0x79
.equ    find, 0x66
.equ    here, 0x68
.equ    enter, 0x65
.equ    ask, 0x61
.equ    number, 0x6e
.equ    nowhere, 255            # the number of no machine, and of all
.equ    length, 20              # of a frame
.equ    place, 0x00500000       # where the ring is seen
.equ    buffers, 0x800          # the bits in which the addresses of its two buffers differ
.equ    patience, 2000          # ticks for an answer

start:  li   $2, 3              # alloc: the lowest free page, which nobody else may bind
        li   $4, -1
        syscall
        bne  $2, $0, failed
        move $16, $3            # its number
        li   $2, 6              # bind: at the VPN of `place`
        li   $4, 0x500
        move $5, $16
        li   $6, 1              # to store to it too
        syscall
        bne  $2, $0, failed
        nop
        li   $2, 14             # claim: the packets of this filter
        la   $4, filter
        li   $5, 2              # atoms
        move $6, $16            # into this page
        syscall
        bne  $2, $0, failed
        nop
        la   $16, place         # the buffer of the next packet
        la   $17, frame

        jal  receive            # who it is, and whom it looks for
        ori  $8, $0, you
        beq  $2, $0, failed     # nobody told it
        move $20, $3            # the own machine, from which each frame comes
        sb   $3, 11($17)
        move $18, $4            # the own name
        move $19, $5            # the name that it looks for

seek:   ori  $8, $0, find       # where is the name server?
        li   $9, nowhere
        move $10, $0
        li   $11, nowhere
        jal  call
        ori  $12, $0, here
        beq  $2, $0, seek
        move $21, $3            # the server

        ori  $8, $0, enter      # it is to enter the own name
        move $9, $20
        move $10, $18
        move $11, $21
        jal  call
        ori  $12, $0, number
        beq  $2, $0, seek       # no answer: perhaps it wasn't the server that answered
        nop

again:  ori  $8, $0, ask        # where is the other?
        li   $9, nowhere
        move $10, $19
        move $11, $21
        jal  call
        ori  $12, $0, number
        beq  $2, $0, seek
        ori  $8, $0, nowhere
        beq  $3, $8, again      # it isn't entered yet
        nop

        la   $8, text
        sw   $19, 0($8)
        addiu $3, $3, 0x30      # the digit
        sb   $3, 16($8)
        move $4, $8
        li   $5, 18
        li   $2, 1              # put
        syscall
        li   $4, 0
leave:  li   $2, 2              # exit
        syscall
failed: b    leave
        ori  $4, $0, 1

# Sends a frame of the letter $8 with the number $9 and the name $10 to machine $11, and waits for one of the letter $12.
call:   move $22, $31
        sb   $8, 14($17)
        sb   $9, 15($17)
        sw   $10, 16($17)
        sb   $11, 5($17)
        li   $2, 19             # send
        move $4, $17
        li   $5, length
        syscall
        jal  receive
        move $8, $12
        jr   $22
        nop

# Waits for a frame of the letter $8: $2 is 1, $3 its number, $4 its name and $5 the name after that. $2 is 0 if none came for
# too long.
receive: li  $2, 21             # clock
        syscall
        addiu $15, $3, patience
wait:   lw   $2, 0($16)         # the packet's length, or 0
        bne  $2, $0, came
        nop
        li   $2, 0              # yield, to whoever is next
        li   $4, -1
        syscall
        li   $2, 21
        syscall
        sltu $2, $3, $15
        bne  $2, $0, wait
        nop
        jr   $31                # $2 is 0
        nop
came:   lbu  $2, 18($16)        # what it is, four bytes after the length
        lbu  $3, 19($16)
        lw   $4, 20($16)
        lw   $5, 24($16)
        sw   $0, 0($16)         # the buffer is empty again
        xori $16, $16, buffers  # the next packet is in the other
        bne  $2, $8, wait       # it is something else
        nop
        jr   $31
        ori  $2, $0, 1
.data
frame:  .byte 2, 0, 0, 0, 0, 0
        .byte 2, 0, 0, 0, 0, 0
        .byte 0x88, 0xb6
        .space 6
filter: .half 12, 2
        .word 0xffff, 0x88b6
        .half 16, 4
        .word 0, 0
text:   .ascii "nnnn is machine 0\n"
