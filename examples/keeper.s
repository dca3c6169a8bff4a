# Counts in its own page, and gives nothing back. When the page is taken, it goes on with the copy in its backup.
.equ    place, 0x00500000       # where the page is seen

start:  li   $2, 8              # context: exceptions (0) are handled at $5
        li   $4, 0
        la   $5, handler
        syscall
        li   $2, 3              # alloc: any page, with no words in $5 to $8, so that nobody else may bind it
        li   $4, -1
        move $5, $0
        move $6, $0
        move $7, $0
        move $8, $0
        syscall
        move $16, $3            # the page in which it counts
        li   $9, 2              # and two backups
load:   li   $2, 3              # alloc
        li   $4, -1
        syscall
        li   $2, 18             # backup
        move $4, $3
        syscall
        addiu $9, $9, -1
        bne  $9, $0, load
        nop
        li   $2, 6              # bind: the page, at the VPN of `place`
        li   $4, 0x500
        move $5, $16
        li   $6, 1              # to store to it too
        syscall
        la   $17, place
        li   $18, 0x1180        # the next record
count:  lw   $8, 0($17)
        addiu $8, $8, 1
        sw   $8, 0($17)
        b    count
        nop

# The address to go on at is in $26, and the bad address in $27. What the program had in $1, $26 and $27 is at 0x1000,
# 0x1004 and 0x1008. The records of pages that were taken begin at 0x1180.
handler: sw  $2, 0x1800($0)
        sw   $4, 0x1804($0)
        sw   $5, 0x1808($0)
        sw   $6, 0x180c($0)
next:   lw   $2, 0($18)         # the page of the next record, and 0 if there is none
        lw   $1, 4($18)         # where its copy is, or -1
        bne  $2, $16, give_up   # it isn't this page: another exception
        addiu $18, $18, 8
        move $16, $1
        li   $2, 6              # bind: the copy, where the page was
        srl  $4, $27, 12
        move $5, $16
        li   $6, 1
        syscall
        bne  $2, $0, next       # the copy was taken too, or there is none
        nop
        lw   $2, 0x1800($0)
        lw   $4, 0x1804($0)
        lw   $5, 0x1808($0)
        lw   $6, 0x180c($0)
        lw   $1, 0x1000($0)
        lw   $27, 0x1008($0)
        jr   $26
        lw   $26, 0x1004($0)    # runs before the jump is over

give_up: li  $2, 2              # exit with 1
        li   $4, 1
        syscall
