# Allocates the pages 2 to 4. It claims into 2 all packets of one byte and more, and into 3 those of three and more, and loads 3
# as a backup. Each instruction is a tick.
        addiu $4, $0, -1        # 0
        ori  $2, $0, 3          # alloc
        syscall                 # 2     2
        ori  $2, $0, 3
        syscall                 # 4     3
        ori  $2, $0, 3
        syscall                 # 6     4
        lui  $8, 1
        sw   $8, 0x1800($0)     # 8     one byte at 0, of any value
        sw   $0, 0x1804($0)
        sw   $0, 0x1808($0)     # 10
        ori  $4, $0, 0x1800
        ori  $5, $0, 1          # 12
        ori  $6, $0, 2
        ori  $2, $0, 14         # 14    claim
        syscall                 # 15    claim 0, into page 2
        ori  $8, $8, 2
        sw   $8, 0x1800($0)     # 17    one byte at 2
        ori  $6, $0, 3
        ori  $2, $0, 14         # 19    claim
        syscall                 # 20    claim 1, into page 3
        or   $16, $3, $0
        ori  $4, $0, 3          # 22
        ori  $2, $0, 18         # 23    backup
        syscall                 # 24
        ori  $4, $0, 0x500      # 25
        ori  $5, $0, 3
        ori  $6, $0, 1          # 27
        ori  $2, $0, 6          # 28    bind
        syscall                 # 29    page 3
        lui  $9, 0x50           # 30
        lw   $17, 0($9)         # 31
        lw   $18, 0($9)         # 32    page 2 was taken in this tick
        lw   $19, 4($9)         # 33
        ori  $4, $0, 0          # 34
        ori  $2, $0, 15         # 35    unclaim
        syscall                 # 36    claim 0
        or   $20, $2, $0
        lw   $21, 0x800($9)     # 38
        lw   $22, 0x1140($0)
        lw   $23, 0x1144($0)    # 40
stay:   b    stay
        nop
