# Sends bursts of three frames to all other machines, with a pause before each.
.equ    pause, 300              # ticks, about

start:  li   $16, 80            # bursts
burst:  li   $17, pause
rest:   addiu $17, $17, -3
        bgtz $17, rest
        nop
        li   $17, 3
        la   $4, frame
        li   $5, 24
next:   li   $2, 19             # send
        syscall
        addiu $17, $17, -1
        bne  $17, $0, next
        nop
        addiu $16, $16, -1
        bne  $16, $0, burst
        nop
end:    b    end
        nop
.data
frame:  .byte 2, 0, 0, 0, 0, 255
        .byte 2, 0, 0, 0, 0, 2
        .byte 0x88, 0xb7
        .byte 0x6e, 0           # n
        .space 8
