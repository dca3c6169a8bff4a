# Has memory put where it is used. The store goes to an address where no page is, which is an exception; the handler
# binds a page there that was allocated before, and the store runs again.
start:  li   $2, 8              # context: exceptions (0) are handled at $5
        li   $4, 0
        la   $5, handler
        syscall
        li   $2, 3              # alloc: any page, with no words in $5 to $8, so that nobody else may bind it
        li   $4, -1
        move $5, $0
        move $6, $0
        move $7, $0
        move $8, $0
        syscall
        move $16, $3            # the page's number
        li   $8, 0x500000
        li   $9, 0x0a6968       # "hi\n", the lowest byte first
        sw   $9, 4($8)          # TLBS
        li   $2, 1              # put
        addiu $4, $8, 4
        li   $5, 3
        syscall
        li   $2, 2              # exit
        li   $4, 0
        syscall

# Cause is in $1, the address to go on at in $26, and the bad address in $27. What the program had in these three
# is at 0x1000, 0x1004 and 0x1008; what the handler uses beside them it keeps itself.
handler: andi $1, $1, 0x7c      # the exception's code, times 4
        addiu $1, $1, -12
        bne  $1, $0, give_up    # it isn't TLBS, a store to no page
        nop
        sw   $2, 0x1800($0)
        sw   $3, 0x1804($0)
        sw   $4, 0x1808($0)
        sw   $5, 0x180c($0)
        sw   $6, 0x1810($0)
        li   $2, 6              # bind: at the VPN of the bad address
        srl  $4, $27, 12
        move $5, $16            # the page, whose owner needs no word
        li   $6, 1              # to store to it too
        syscall
        bne  $2, $0, give_up
        nop
        lw   $2, 0x1800($0)
        lw   $3, 0x1804($0)
        lw   $4, 0x1808($0)
        lw   $5, 0x180c($0)
        lw   $6, 0x1810($0)
        lw   $1, 0x1000($0)
        lw   $27, 0x1008($0)
        jr   $26
        lw   $26, 0x1004($0)    # runs before the jump is over

give_up: li  $2, 2              # exit with 1
        li   $4, 1
        syscall
