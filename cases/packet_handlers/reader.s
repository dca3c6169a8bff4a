# Binds the owner's page, reads what the handler stores there, and stores there itself.
start:  ori  $4, $0, 0x500      # 19
        ori  $5, $0, 12
        ori  $6, $0, 1
        ori  $7, $0, 9          # the word that is presented
        ori  $2, $0, 6          # bind
        syscall                 # 24
        lui  $8, 0x50
        lw   $16, 0($8)         # 26
        lw   $17, 0($8)         # 27
        ori  $9, $0, 0x100
        sw   $9, 0($8)          # 29
        sw   $9, 4($8)          # 30
        lw   $18, 0($8)         # 31
        lw   $19, 0x1140($0)
stay:   b    stay
        nop
