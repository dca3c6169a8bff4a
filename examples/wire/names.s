# A name server: it tells where it is when it is looked for, enters where names are, and answers where a name is.
#
# A frame has 20 bytes: the receiver's and the sender's address, which are 02:00:00:00:00:N of machine N; the kind 0x88b6; a
# letter, which says what it is; the number of a machine; and a name of four letters.
#
#     y   you are this machine; of a client also this is your name, and the next four letters are the one that you look for
#     f   where is the name server?
#     h   it is here, on this machine
#     e   enter that the name is at this machine
#     a   where is the name?
#     n   the name is at this machine
#
# A program can't ask on which machine it runs: the first packet of the schedule tells it, by y.
.equ    you, 0x79
.equ    find, 0x66
.equ    here, 0x68
.equ    enter, 0x65
.equ    ask, 0x61
.equ    number, 0x6e
.equ    nowhere, 255            # the number of no machine
.equ    machines, 8
.equ    length, 20              # of a frame
.equ    place, 0x00500000       # where the ring is seen
.equ    buffers, 0x800          # the bits in which the addresses of its two buffers differ

start:  li   $2, 3              # alloc: the lowest free page, which nobody else may bind
        li   $4, -1
        syscall
        bne  $2, $0, failed
        move $16, $3            # its number
        li   $2, 6              # bind: at the VPN of `place`
        li   $4, 0x500
        move $5, $16
        li   $6, 1              # to store to it too
        syscall
        bne  $2, $0, failed
        nop
        li   $2, 14             # claim: the packets of this filter
        la   $4, filter
        li   $5, 2              # atoms
        move $6, $16            # into this page
        syscall
        bne  $2, $0, failed
        nop
        la   $16, place         # the buffer of the next packet
        la   $17, table         # the name at each machine, 0 where there is none
        li   $18, nowhere       # the own machine
wait:   lw   $8, 0($16)         # the packet's length, or 0
        bne  $8, $0, told
        nop
        li   $2, 0              # yield, to whoever is next
        li   $4, -1
        syscall
        b    wait
        nop

told:   lbu  $8, 18($16)        # what it says, its number and its name: they begin four bytes after the length
        lbu  $9, 19($16)
        lw   $10, 20($16)
        ori  $11, $0, you
        beq  $8, $11, named
        ori  $11, $0, find
        beq  $8, $11, found
        ori  $11, $0, enter
        beq  $8, $11, entry
        ori  $11, $0, ask
        bne  $8, $11, next
        move $9, $0             # asked: the machine, and its place in the table
        move $12, $17
seek:   lw   $11, 0($12)
        beq  $11, $10, known
        addiu $12, $12, 4
        addiu $9, $9, 1
        sltiu $11, $9, machines
        bne  $11, $0, seek
        nop
        li   $9, nowhere
known:  b    reply
        ori  $8, $0, number
named:  b    next
        move $18, $9
found:  ori  $8, $0, here
        b    reply
        move $9, $18
entry:  sltiu $11, $9, machines
        beq  $11, $0, next
        sll  $11, $9, 2
        addu $11, $11, $17
        sw   $10, 0($11)
        ori  $8, $0, number
reply:  sb   $8, 18($16)
        sb   $9, 19($16)
        lbu  $8, 15($16)        # it goes back to the machine from which it came
        sb   $8, 9($16)
        sb   $18, 15($16)
        li   $2, 19             # send
        addiu $4, $16, 4
        li   $5, length
        syscall
next:   sw   $0, 0($16)         # the buffer is empty again
        xori $16, $16, buffers  # the next packet is in the other
        b    wait
        nop
failed: move $4, $2
        li   $2, 2              # exit, with the code
        syscall
.data
table:  .space 32               # by machine, the name that is there
# Frames of this kind, none of which is shorter. Atoms: offset and width of a field, mask, value.
filter: .half 12, 2
        .word 0xffff, 0x88b6
        .half 16, 4
        .word 0, 0
