# Puts the context page until put is refused, and then one byte, none, and more than a page. Exits with the four codes,
# a byte each, the first lowest.
start:  ori  $4, $0, 0x1000
        ori  $5, $0, 4096
again:  ori  $2, $0, 1          # put
        syscall
        beq  $2, $0, again
        nop
        addu $16, $2, $0
        ori  $5, $0, 1
        ori  $2, $0, 1
        syscall
        sll  $2, $2, 8
        or   $16, $16, $2
        ori  $5, $0, 0
        ori  $2, $0, 1
        syscall
        sll  $2, $2, 16
        or   $16, $16, $2
        ori  $5, $0, 4097
        ori  $2, $0, 1
        syscall
        sll  $2, $2, 24
        or   $16, $16, $2
        addu $4, $16, $0
        ori  $2, $0, 2          # exit
        syscall
