# Allocates the pages 2 to 8, binds each at VPN 0x500 plus its number, and stores its number into it. It loads 8, 3 and 6 as
# backups, in this order, frees 3, gives 8 other words, and yields for ever.
        ori  $16, $0, 2         # the page
        lui  $17, 0x50
        ori  $17, $17, 0x2000   # where it is seen
next:   addiu $4, $0, -1
        ori  $2, $0, 3          # alloc
        syscall
        ori  $2, $0, 6          # bind
        srl  $4, $17, 12
        or   $5, $16, $0
        ori  $6, $0, 1
        syscall
        sw   $16, 0($17)
        addiu $16, $16, 1
        sltiu $8, $16, 9
        bne  $8, $0, next
        addiu $17, $17, 0x1000
        ori  $4, $0, 8
        ori  $2, $0, 18         # backup
        syscall
        ori  $4, $0, 3
        ori  $2, $0, 18
        syscall
        ori  $4, $0, 6
        ori  $2, $0, 18
        syscall
        ori  $4, $0, 3
        ori  $2, $0, 4          # free
        syscall
        ori  $4, $0, 8
        ori  $2, $0, 5          # recap
        syscall
stay:   b    stay
        nop
