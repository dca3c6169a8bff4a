# Allocates page 7, and is ready to claim into it by one atom at the beginning of its data.
        addiu $4, $0, -1
        ori  $2, $0, 3          # alloc
        syscall
        lui  $4, 0x1000
        ori  $5, $0, 1          # an atom
        move $6, $3             # the page
        ori  $2, $0, 14         # claim
