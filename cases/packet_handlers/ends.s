# Claims all packets into page 8 and gives the claim a handler, four times. A claim ends by an unclaim, with a free of its page, as
# the page is taken, and by the death. Each instruction is a tick, and `la` two. The handler replies with 14 bytes, which begin
# with the first byte of the packet and the number of the claim.
start:  ori  $4, $0, 8          # 0
        ori  $2, $0, 3          # alloc
        syscall                 # 2
        la   $4, all            # 3
        ori  $5, $0, 1
        ori  $6, $0, 8
        ori  $2, $0, 14         # 7     claim
        syscall                 # 8     claim 0
        ori  $4, $0, 0
        la   $5, handler        # 10
        ori  $6, $0, 6
        ori  $2, $0, 16         # 13    handler
        syscall                 # 14
        ori  $4, $0, 8          # 15
        ori  $2, $0, 5          # recap
        syscall                 # 17
        ori  $4, $0, 0          # 18
        ori  $2, $0, 15         # unclaim
        syscall                 # 20
        la   $4, all            # 21
        ori  $5, $0, 1
        ori  $6, $0, 8
        ori  $2, $0, 14         # 25    claim
        syscall                 # 26    claim 1
        ori  $4, $0, 1          # 27
        la   $5, handler        # 28
        ori  $6, $0, 6
        ori  $2, $0, 16         # 31    handler
        syscall                 # 32
        ori  $4, $0, 8          # 33
        ori  $2, $0, 4          # free
        syscall                 # 35
        ori  $2, $0, 3          # 36    alloc
        syscall                 # 37
        la   $4, all            # 38
        ori  $5, $0, 1
        ori  $6, $0, 8
        ori  $2, $0, 14         # 42    claim
        syscall                 # 43    claim 2
        ori  $4, $0, 2          # 44
        la   $5, handler        # 45
        ori  $6, $0, 6
        ori  $2, $0, 16         # 48    handler
        syscall                 # 49
        nop                     # 50
        nop                     # 51    page 8 was taken in this tick
        nop                     # 52
        ori  $4, $0, 8          # 53
        ori  $2, $0, 3          # alloc
        syscall                 # 55
        la   $4, all            # 56
        ori  $5, $0, 1
        ori  $6, $0, 8
        ori  $2, $0, 14         # 60    claim
        syscall                 # 61    claim 3
        ori  $4, $0, 3          # 62
        la   $5, handler        # 63
        ori  $6, $0, 6
        ori  $2, $0, 16         # 66    handler
        syscall                 # 67
        ori  $4, $0, 7          # 68
        ori  $2, $0, 2          # exit
        syscall                 # 70
handler: lbu $8, 0($0)
        sb   $8, 0x1f00($0)
        sb   $5, 0x1f01($0)
        ori  $4, $0, 0x1f00
        ori  $5, $0, 14
        syscall
.data
all:    .half 0, 1
        .word 0, 0
