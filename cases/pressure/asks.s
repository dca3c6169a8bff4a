# Allocates any page until it is refused, which $16 and $17 keep with the value. Then it yields and tries once more, again and
# again: $18 and $19 have the last answer.
        addiu $4, $0, -1
more:   ori  $2, $0, 3          # alloc
        syscall
        beq  $2, $0, more
        nop
        addu $16, $2, $0
        addu $17, $3, $0
yield:  ori  $2, $0, 0
        syscall
        ori  $2, $0, 3
        syscall
        addu $18, $2, $0
        b    yield
        addu $19, $3, $0
