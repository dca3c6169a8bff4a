start:  jr   $8                 # which is 0, and no page is there
        nop
