# Binds its page at two VPNs of two rows, to store through the one and to load alone through the other.
start:  addiu $4, $0, -1
        ori  $2, $0, 3          # alloc
        syscall
        addu $5, $3, $0
        ori  $6, $0, 1
        ori  $2, $0, 6          # bind
        ori  $4, $0, 0x500
        syscall
        ori  $6, $0, 0
        ori  $2, $0, 6
        ori  $4, $0, 0x501
        syscall
        lui  $9, 0x50
        ori  $8, $0, 0x1234
        sh   $8, 0xffe($9)
        lw   $10, 0x1ffc($9)    # the last word of the page, through the other number
        ori  $2, $0, 7          # unbind
        ori  $4, $0, 0x500
        syscall
        lw   $11, 0x1ffc($9)    # there it is still bound
        sw   $8, 0x1ffc($9)     # at 0x2050: and not to store
