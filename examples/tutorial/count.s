# Step 2: counts for ever, in $16 by one and in $17 by two.
start:  addiu $16, $16, 1
        addiu $17, $17, 2
        b    start
        nop                     # runs before the branch is over
