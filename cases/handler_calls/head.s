# Allocates page 7, claims the kind 0x0801 into it, which is claim 2, and is ready to give it the handler of two words at 0x10000010.
start:  addiu $4, $0, -1
        ori  $2, $0, 3          # alloc
        syscall
        lui  $4, 0x1000
        ori  $5, $0, 1          # an atom
        move $6, $3             # the page
        ori  $2, $0, 14         # claim
        syscall
        move $4, $3
        lui  $5, 0x1000
        ori  $5, $5, 0x10       # the words
        ori  $6, $0, 2          # how many
        ori  $2, $0, 16         # handler
