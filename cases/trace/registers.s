# Mapped at 0x2000. Handles exceptions, multiplies, meets a load where nothing is mapped, and exits.
start:  ori  $2, $0, 8          # context: exceptions are handled at caught
        ori  $5, $0, 0x2028
        syscall
        lui  $8, 0x8000         # at 0x200c
        mult $8, $8
        addiu $9, $0, -1
        multu $9, $9
        b    on                 # at 0x201c
        addiu $0, $0, 1
on:     lw   $10, 0($0)         # at 0x2024
caught: ori  $2, $0, 2          # exit 5
        ori  $4, $0, 5
        syscall
