# Allocates page 2, binds it at VPN 0x500, and claims all packets into it, in tick 13. In tick 19 the claim has a handler, which stores
# a packet's length to the page, and replies 14 bytes from there.
filter: .half 0, 1
        .word 0, 0
reply:  sw   $4, 0x1000($0)
        ori  $4, $0, 0x1000
        ori  $5, $0, 14
        syscall
start:  addiu $4, $0, -1
        ori  $2, $0, 3
        syscall
        ori  $4, $0, 0x500
        or   $5, $3, $0
        ori  $6, $0, 1
        ori  $2, $0, 6
        syscall
        la   $4, filter
        or   $6, $5, $0
        ori  $5, $0, 1
        ori  $2, $0, 14
        syscall
        or   $4, $3, $0
        la   $5, reply
        ori  $6, $0, 4
        ori  $2, $0, 16
        syscall
        lui  $9, 0x50
