# Binds the owner's ring, reads packets in it, and empties a buffer.
start:  ori  $4, $0, 0x500      # 13
        ori  $5, $0, 12
        ori  $6, $0, 1
        ori  $7, $0, 9          # the word that is presented
        ori  $2, $0, 6          # bind
        syscall                 # 18
        lui  $8, 0x50
        lw   $16, 0($8)         # 20
        lw   $17, 4($8)
        sw   $0, 0($8)          # 22
        lw   $18, 0x800($8)     # 23
        lw   $19, 0($8)
        lw   $20, 4($8)         # 25
        lw   $21, 0x1140($0)
stay:   b    stay
        nop
