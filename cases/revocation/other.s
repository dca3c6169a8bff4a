# Spins.
stay:   b    stay
        nop
