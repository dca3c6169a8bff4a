# Claims the packets that begin with 1, which is claim 0, and all packets, claim 1, both into page 8. Claim 1 has a handler, which
# stores the length of a packet where the length of the first buffer is, and replies with the page's first 14 bytes.
start:  ori  $4, $0, 8          # 0
        ori  $2, $0, 3          # alloc
        syscall                 # 2
        ori  $4, $0, 0x500
        ori  $5, $0, 8
        ori  $6, $0, 1
        ori  $2, $0, 6          # bind
        syscall                 # 7
        la   $4, ones           # 8
        ori  $5, $0, 1
        ori  $6, $0, 8
        ori  $2, $0, 14         # claim
        syscall                 # 13    claim 0
        addiu $4, $4, 12
        ori  $2, $0, 14
        syscall                 # 16    claim 1
        ori  $4, $0, 1
        la   $5, handler        # 18
        ori  $6, $0, 4
        ori  $2, $0, 16         # handler
        syscall                 # 22
        lui  $9, 0x50           # 23
        lw   $16, 0($9)         # 24
        lw   $17, 0x1144($0)    # 25
        sw   $0, 0($9)          # 26
        lw   $18, 0($9)         # 27
        lw   $19, 4($9)         # 28
        lw   $20, 0($9)         # 29
        la   $4, packet         # 30
        ori  $5, $0, 14
        ori  $2, $0, 19         # send
        syscall                 # 34
        lw   $21, 0x800($9)     # 35
        lw   $22, 0x1140($0)    # 36
        lw   $23, 0x1144($0)    # 37
stay:   b    stay
        nop
handler: sw  $4, 0x1000($0)
        ori  $4, $0, 0x1000
        ori  $5, $0, 14
        syscall
.data
ones:   .half 0, 1
        .word 0xff, 1
all:    .half 0, 1
        .word 0, 0
packet: .byte 1, 2, 3, 4, 5, 6, 7, 8, 9, 10, 11, 12, 13, 14
