# Prints the Cause of each exception, and exits. The handler goes on with the word behind the one that raised it.
        la   $4, causes
        subu $5, $16, $4
        ori  $2, $0, 1          # put
        syscall
        ori  $2, $0, 2          # exit
        ori  $4, $0, 0
        syscall
handler:
        sw   $1, 0($16)
        addiu $16, $16, 4
        addiu $26, $26, 4
        jr   $26
        nop
        .data
causes: .space 512
