# Stores the letter that is as far behind "A" as its number is above 0, yields, and prints what is stored.
start:  ori  $2, $0, 20         # self
        syscall
        addiu $8, $3, 0x41
        lui  $9, 0x40
        sb   $8, lo(cell)($9)
        addiu $4, $0, -1
        ori  $2, $0, 0          # yield
        syscall
        ori  $4, $9, lo(cell)
        ori  $5, $0, 1
        ori  $2, $0, 1          # put
        syscall
        ori  $4, $0, 0
        ori  $2, $0, 2          # exit
        syscall
cell:   .ascii "?"
