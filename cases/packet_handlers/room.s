# Sends 254 packets. Then its handler replies four times to each of two packets. When it sees that both came, it sends one more.
start:  addiu $4, $0, -1
        ori  $2, $0, 3          # alloc
        syscall
        ori  $4, $0, 0x500
        move $5, $3
        ori  $6, $0, 1
        ori  $2, $0, 6          # bind
        syscall
        move $6, $5
        la   $4, all
        ori  $5, $0, 1
        ori  $2, $0, 14         # claim
        syscall
        ori  $4, $0, 0
        la   $5, handler
        ori  $6, $0, 10
        ori  $2, $0, 16         # handler
        syscall
        ori  $16, $0, 254
        la   $4, packet
        ori  $5, $0, 14
next:   ori  $2, $0, 19         # send
        syscall
        addiu $16, $16, -1
        bne  $16, $0, next
        nop
        lui  $9, 0x50
        ori  $10, $0, 2
look:   lw   $17, 0($9)         # how many packets came
        bne  $17, $10, look
        nop
        ori  $2, $0, 19         # send
        syscall
        move $18, $2
        lw   $19, 16($9)
        lw   $20, 0x1140($0)
        lw   $21, 0x1144($0)
stay:   b    stay
        nop
handler: lw  $8, 0x1000($0)     # counts the packets
        addiu $8, $8, 1
        sw   $8, 0x1000($0)
        ori  $4, $0, 0x1000
        ori  $5, $0, 14
        syscall
        syscall
        syscall
        syscall
        sw   $8, 0x1010($0)     # behind the replies
.data
all:    .half 0, 1
        .word 0, 0
packet: .space 14
