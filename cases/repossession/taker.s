# Wants the page 4 of the other until it has it.
        ori  $4, $0, 4          # 5
again:  ori  $2, $0, 3          # 6, 10, 14, 18 ..  alloc
        syscall                 # 7, 11, 15, 19 ..
        bne  $2, $0, again
        nop
stay:   b    stay
        nop
