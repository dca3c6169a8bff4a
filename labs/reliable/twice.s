# Sends four blocks, each several times, and looks at no answer: the letters of the alphabet from a on, and then the 0.
.equ    times, 2                # the checker has other numbers in these two lines
.equ    pause, 600              # ticks, about

start:  la   $18, frame
        li   $16, 0             # the block's number
next:   sb   $16, 15($18)
        li   $17, times
again:  li   $2, 19             # send
        move $4, $18
        li   $5, 24
        syscall
        li   $8, pause
rest:   addiu $8, $8, -3
        bgtz $8, rest
        nop
        addiu $17, $17, -1
        bne  $17, $0, again
        nop
        li   $8, 8              # the letters of the next block
        addiu $9, $18, 16
letter: lbu  $10, 0($9)
        addiu $10, $10, 8
        sb   $10, 0($9)
        addiu $9, $9, 1
        addiu $8, $8, -1
        bne  $8, $0, letter
        nop
        addiu $16, $16, 1
        li   $8, 3
        bne  $16, $8, last
        nop
        sw   $0, 16($18)
        sw   $0, 20($18)
last:   sltiu $8, $16, 4
        bne  $8, $0, next
        nop
        li   $2, 2              # exit
        li   $4, 0
        syscall
.data
frame:  .byte 2, 0, 0, 0, 0, 1
        .byte 2, 0, 0, 0, 0, 0
        .byte 0x88, 0xb7
        .byte 0x64, 0           # d
        .ascii "abcdefgh"
