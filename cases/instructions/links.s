# Branches and jumps that link. A branch that isn't taken links too, and JALR jumps to what its register was.
start:  bltzal $0, away
        addu $8, $31, $0
        jal  sub
        addiu $9, $0, 1
        b    stop
        nop
sub:    jalr $10, $31
        addiu $11, $0, 2
away:   break
stop:   b    stop
        nop
