# Sends packets of 14 bytes, of which the last counts up, until one is refused. Then it asks for one more of a bad range and
# for one of a bad length, and yields.
start:  la   $4, packet
        li   $5, 14
next:   sb   $16, 13($4)
        li   $2, 19             # send
        syscall
        bne  $2, $0, full
        nop
        b    next
        addiu $16, $16, 1       # runs before the branch is over
full:   move $17, $2
        li   $4, 0
        li   $2, 19
        syscall
        move $18, $2
        li   $5, 13
        li   $2, 19
        syscall
        move $19, $2
        li   $4, -1             # to whoever is next
        li   $2, 0              # yield
        syscall
stay:   b    stay
        nop
.data
packet: .byte 0xff, 0xff, 0xff, 0xff, 0xff, 0xff, 2, 0, 0, 0, 0, 1, 8
        .space 1
