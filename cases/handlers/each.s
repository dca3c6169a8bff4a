# Sets the handler of its own number, and breaks; who has an even number raises RI instead.
start:  ori  $2, $0, 20         # self
        syscall
        addu $16, $3, $0
        sll  $5, $3, 4
        lui  $8, hi(zero)
        ori  $8, $8, lo(zero)
        addu $5, $5, $8
        ori  $2, $0, 8          # context: the handlers are sixteen bytes apart
        syscall
        andi $8, $16, 1
        bne  $8, $0, odd
        nop
        .word 0xffffffff
odd:    break
zero:   ori  $17, $0, 0xa0
        b    stay
        nop
        nop
one:    ori  $17, $0, 0xa1
        b    stay
        nop
        nop
two:    ori  $17, $0, 0xa2
        b    stay
        nop
        nop
stay:   b    stay
        nop
