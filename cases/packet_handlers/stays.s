stay:   b    stay
        nop
