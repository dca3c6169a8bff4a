# Allocates six pages, as for a cache, and gives back as many of them as it is asked for.
.equ    most, 24                # the bytes of their numbers

start:  la   $18, cache         # the numbers of its pages
        move $17, $18           # where the next is put
more:   li   $2, 3              # alloc: the lowest free page, which nobody else may bind
        li   $4, -1
        syscall
        bne  $2, $0, look       # no page is free
        nop
        sw   $3, 0($17)
        addiu $17, $17, 4
        subu $8, $17, $18
        sltiu $8, $8, most
        bne  $8, $0, more
        nop

look:   lw   $8, 0x1150($0)     # the deadline, or 0
        beq  $8, $0, rest       # nothing is asked
        nop
        sw   $0, 0x1150($0)     # from here on each revocation is one more
        lw   $16, 0x114c($0)    # the pages that are outstanding
        li   $2, 21             # clock
        syscall
        sltu $8, $3, $8
        beq  $8, $0, rest       # it has passed: what was outstanding is taken
        nop
give:   beq  $17, $18, rest     # it has no page left
        nop
        addiu $17, $17, -4
        lw   $4, 0($17)         # the page that it got last
        li   $2, 4              # free
        syscall
        sltiu $2, $2, 1         # 1 if that was granted, and 0 if the page was taken before
        subu $16, $16, $2
        bne  $16, $0, give
        nop
        b    look
        nop
rest:   li   $2, 0              # yield, to whoever is next
        li   $4, -1
        syscall
        b    look
        nop
.data
cache:  .space 24
