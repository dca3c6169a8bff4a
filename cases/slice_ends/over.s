# Mapped at 0x2000. The handler of ends counts down from 16 before it yields, which takes it 52 ticks.
start:  ori  $2, $0, 8          # context: ends are handled at 0x2018
        ori  $4, $0, 2
        ori  $5, $0, 0x2018
        syscall
stay:   b    stay               # at 0x2010
        nop
ended:  ori  $8, $0, 16         # at 0x2018
count:  addiu $8, $8, -1
        bne  $8, $0, count
        nop
        ori  $2, $0, 0          # yield
        addiu $4, $0, -1
        syscall
