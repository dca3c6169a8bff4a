# Mapped at 0x2000. The handler of ends never yields.
start:  ori  $2, $0, 8          # context: ends are handled at 0x2018
        ori  $4, $0, 2
        ori  $5, $0, 0x2018
        syscall
stay:   b    stay               # at 0x2010
        nop
ended:  b    ended              # at 0x2018
        nop
