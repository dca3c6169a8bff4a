# Counts in $8 how often it has yielded, for ever.
        addiu $4, $0, -1        # to whoever is next
loop:   addiu $8, $8, 1
        ori  $2, $0, 0          # yield
        syscall
        b    loop
        nop
