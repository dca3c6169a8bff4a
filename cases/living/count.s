# Counts in $8, for ever.
loop:   addiu $8, $8, 1
        b    loop
        nop
