# The page is seen at two addresses, and put from both.
start:  li   $2, 3              # alloc
        li   $4, -1             # the lowest free page
        syscall
        bne  $2, $0, failed     # the code: 0 if the call was granted
        move $16, $3            # the value: the page's number
        li   $2, 6              # bind
        li   $4, 0x500          # the virtual page number: the address divided by 4,096
        move $5, $16
        li   $6, 1              # to store to it too
        syscall
        bne  $2, $0, failed
        nop
        li   $2, 6              # bind once more
        li   $4, 0x501
        move $5, $16
        li   $6, 1
        syscall
        bne  $2, $0, failed
        nop
        li   $8, 0x00500000
        li   $9, 0x000a6968     # "hi\n", the lowest byte first
        sw   $9, 0($8)
        li   $2, 1              # put
        move $4, $8
        li   $5, 3
        syscall
        li   $2, 1              # put
        li   $4, 0x00501000
        syscall
stay:   b    stay
        nop
failed: move $4, $2
        li   $2, 2              # exit, with the call's code
        syscall
