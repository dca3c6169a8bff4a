
# Loads the words of the exception area into $8 to $13, and stays.
handler:
        lw   $8, 0x1000($0)
        lw   $9, 0x1004($0)
        lw   $10, 0x1008($0)
        lw   $11, 0x100c($0)
        lw   $12, 0x1010($0)
        lw   $13, 0x1014($0)
stay:   b    stay
        nop
