# Frees a page that it has bound, and stores where it was bound.
start:  addiu $4, $0, -1
        ori  $2, $0, 3          # alloc
        syscall
        addu $16, $3, $0
        addu $5, $3, $0
        ori  $2, $0, 6          # bind
        ori  $4, $0, 0x500
        ori  $6, $0, 1
        syscall
        lui  $9, 0x50
        sw   $9, 0($9)
        ori  $2, $0, 4          # free
        addu $4, $16, $0
        syscall
        sw   $9, 0($9)
