# Binds page 10 at 0x00500000, loads of it, yields, and loads again.
start:  ori  $2, $0, 6          # bind
        ori  $4, $0, 0x500
        ori  $5, $0, 10
        ori  $7, $0, 5
        syscall
        lui  $9, 0x50
        lw   $8, 0($9)
        ori  $2, $0, 0          # yield
        addiu $4, $0, -1
        syscall
        lw   $8, 0($9)
