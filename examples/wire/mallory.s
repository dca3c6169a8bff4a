# Sends what isn't its own: four times four frames, with pauses between.
#
# The first says to all machines, in the name server's name, that the server is on machine 3. The second is of a kind that
# nobody claims, and the third is too short for the claims of the name server and its clients. The last is for a machine that
# isn't there.
.equ    pause, 40               # yields
.equ    frames, 4

start:  li   $16, 4             # times
again:  la   $17, first
        li   $18, frames
next:   li   $2, 19             # send
        move $4, $17
        lbu  $5, 20($17)        # its length is after it
        syscall
        addiu $17, $17, 24
        addiu $18, $18, -1
        bne  $18, $0, next
        nop
        li   $18, pause
rest:   li   $2, 0              # yield, to whoever is next
        li   $4, -1
        syscall
        addiu $18, $18, -1
        bne  $18, $0, rest
        nop
        addiu $16, $16, -1
        bne  $16, $0, again
        nop
        li   $2, 2              # exit
        li   $4, 0
        syscall
.data
# By frame the receiver, the sender, the kind and what it says; and its length.
first:  .byte 2, 0, 0, 0, 0, 255
        .byte 2, 0, 0, 0, 0, 0
        .byte 0x88, 0xb6
        .byte 0x68, 3, 0, 0, 0, 0, 20, 0, 0, 0
        .byte 2, 0, 0, 0, 0, 255
        .byte 2, 0, 0, 0, 0, 1
        .byte 8, 0
        .byte 0x65, 3, 0x62, 0x6f, 0x62, 0x62, 20, 0, 0, 0
        .byte 2, 0, 0, 0, 0, 255
        .byte 2, 0, 0, 0, 0, 1
        .byte 0x88, 0xb6
        .byte 0x65, 3, 0x62, 0x6f, 0x62, 0x62, 19, 0, 0, 0
        .byte 2, 0, 0, 0, 0, 7
        .byte 2, 0, 0, 0, 0, 0
        .byte 0x88, 0xb6
        .byte 0x68, 3, 0, 0, 0, 0, 20, 0, 0, 0
