# Claims all packets, gives the claim a handler, another one that is bad, another one that is good, and none any more. A good
# handler has one word, and stores the length of a packet into the page. Each instruction is a tick, and `la` two.
start:  addiu $4, $0, -1        # 0
        ori  $2, $0, 3          # alloc
        syscall                 # 2
        ori  $4, $0, 0x500
        move $5, $3
        ori  $6, $0, 1
        ori  $2, $0, 6          # 6     bind
        syscall                 # 7
        move $6, $5
        la   $4, all            # 9
        ori  $5, $0, 1
        ori  $2, $0, 14         # 12    claim
        syscall                 # 13
        lui  $9, 0x50           # 14
        ori  $4, $0, 0
        la   $5, first          # 16
        ori  $6, $0, 1
        ori  $2, $0, 16         # 19    handler
        syscall                 # 20
        lw   $16, 0($9)         # 21
        lw   $17, 0x800($9)
        lw   $18, 0xf00($9)     # 23
        la   $5, bad            # 24
        ori  $6, $0, 2
        ori  $2, $0, 16         # 27    handler: refused
        syscall                 # 28
        move $15, $3
        lw   $19, 0xf00($9)     # 30
        la   $5, second         # 31
        ori  $6, $0, 1
        ori  $2, $0, 16         # 34    handler: in place of the first
        syscall                 # 35
        la   $10, second        # 36
        sw   $0, 0($10)         # 38
        lw   $20, 0xf08($9)     # 39
        lw   $21, 0xf00($9)     # 40
        sw   $0, 0($9)          # 41
        sw   $0, 0x800($9)      # 42
        ori  $6, $0, 0
        ori  $2, $0, 16         # 44    handler: none
        syscall                 # 45
        lw   $22, 0($9)         # 46
        lw   $23, 0x800($9)
        lw   $24, 0x1140($0)
        lw   $25, 0x1144($0)    # 49
stay:   b    stay
        nop
first:  sw   $4, 0x1f00($0)
bad:    nop
        jr   $31
.data
all:    .half 0, 1              # a byte, of any value
        .word 0, 0
second: .word 0xac041f08        # sw $4,0x1f08($0)
