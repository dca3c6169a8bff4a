# Allocates the pages 4 to 7, whose read word is 5 and write word 9, and loads 5 and 6 as backups. It binds 4 and stores into it,
# yields, and stores into it again at its next turn.
        addiu $4, $0, -1        # 0
        ori  $5, $0, 5
        ori  $7, $0, 9
        ori  $2, $0, 3          # 3     alloc
        syscall                 # 4     4
        ori  $2, $0, 3
        syscall                 # 6     5
        ori  $2, $0, 3
        syscall                 # 8     6
        ori  $2, $0, 3
        syscall                 # 10    7
        ori  $4, $0, 5
        ori  $2, $0, 18         # 12    backup
        syscall
        ori  $4, $0, 6
        ori  $2, $0, 18         # 15
        syscall
        ori  $4, $0, 0x500      # 17
        ori  $5, $0, 4
        ori  $6, $0, 1
        ori  $2, $0, 6          # 20    bind
        syscall                 # 21    4
        lui  $9, 0x50
        ori  $10, $0, 0x44
        sw   $10, 0($9)         # 24
        addiu $4, $0, -1
        ori  $2, $0, 0          # 26    yield
        syscall                 # 27
        sw   $10, 0($9)         # at its next turn, of page 4, which isn't its own any more
