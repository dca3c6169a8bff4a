# Binds pages 2 and 3 at the VPNs 0x500 and 0x580, asks whether there is a binding at 0x500, and waits.
        ori  $4, $0, 2
        ori  $2, $0, 3          # alloc
        syscall
        ori  $4, $0, 3
        ori  $2, $0, 3
        syscall
        ori  $4, $0, 0x500
        ori  $5, $0, 2
        ori  $2, $0, 6          # bind
        syscall
        ori  $4, $0, 0x580
        ori  $5, $0, 3
        ori  $2, $0, 6
        syscall
        lui  $8, 0x50
stay:   b    stay
        nop
