# Binds page 6 by its read word and loads; binding it by that word to store is refused, and leaves the binding. Loads again
# after a yield, and then stores.
        ori  $2, $0, 6          # bind
        ori  $4, $0, 0x500
        ori  $5, $0, 6
        ori  $7, $0, 5
        syscall
        lui  $9, 0x50
        lw   $16, 0($9)
        ori  $2, $0, 6
        ori  $6, $0, 1
        syscall
        addu $17, $2, $0
        lw   $18, 0($9)
        addiu $4, $0, -1
        ori  $2, $0, 0          # yield
        syscall
        lw   $19, 0($9)         # the page wasn't touched by its owner but in its first turn
        sw   $9, 0($9)          # at 0x2040
