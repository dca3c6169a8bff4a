# Allocates the pages 7 to 9. Whenever some are outstanding by its context page it frees as many, from 7 on, also those that it
# hasn't, and notes that there.
        addiu $4, $0, -1        # 11
        ori  $2, $0, 3          # 12    alloc
        syscall                 # 13    7
        ori  $2, $0, 3
        syscall                 # 15    8
        ori  $2, $0, 3
        syscall                 # 17    9
        ori  $4, $0, 7          # 18    the page that it frees next
wait:   lw   $16, 0x114c($0)    # 19, 22, 25 .. 31
        beq  $16, $0, wait
        nop
give:   ori  $2, $0, 4          # 34    free, if it was asked in tick 30
        syscall                 # 35    7
        addiu $16, $16, -1
        bne  $16, $0, give
        addiu $4, $4, 1
        sw   $0, 0x114c($0)     # and 40, 45 .. if there is more: 8, 9
        b    wait
        nop
