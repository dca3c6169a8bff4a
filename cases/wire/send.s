# Sends a packet in tick 3, and exits in tick 6.
.equ    to, 1                   # the machine for which it is
.equ    size, 14                # its bytes
start:  ori  $2, $0, 19         # send
        ori  $4, $0, 0x2020
        ori  $5, $0, size
        syscall
        ori  $2, $0, 2          # exit
        ori  $4, $0, 0
        syscall
        nop
.data
        .byte 0, 0, 0, 0, 0, to, 0, 0, 0, 0, 0, 0, 8, 0
        .space 4
