# Asks its number and the time, yields, and prints the two values and the yield's code and value, each as the
# character that is so far behind "0".
start:  lui  $9, 0x40
        ori  $2, $0, 20         # self
        syscall
        addiu $8, $3, 0x30
        sb   $8, lo(text)($9)
        ori  $2, $0, 21         # clock
        syscall
        addiu $8, $3, 0x30
        sb   $8, lo(text+1)($9)
        addiu $4, $0, -1
        ori  $2, $0, 0          # yield
        syscall
        addiu $8, $2, 0x30
        sb   $8, lo(text+2)($9)
        addiu $8, $3, 0x30
        sb   $8, lo(text+3)($9)
        ori  $4, $9, lo(text)
        ori  $5, $0, 4
        ori  $2, $0, 1          # put
        syscall
        ori  $4, $0, 0
        ori  $2, $0, 2          # exit
        syscall
text:   .space 4
