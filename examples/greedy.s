# Calls for any page until none is free and nobody can be asked for one. Then it prints how many it has.
start:  li   $16, 0             # the pages that it has
more:   li   $2, 3              # alloc: any page, with no words in $5 to $8
        li   $4, -1
        syscall
        beq  $2, $0, got
        addiu $2, $2, -22       # runs before the branch is over
        bne  $2, $0, print      # 3, none free: nobody has one that may be taken
        nop
        li   $2, 0              # 22, again: another environment is asked for a page, so yield until it is there
        li   $4, -1
        syscall
        b    more
        nop
got:    b    more
        addiu $16, $16, 1

print:  li   $8, 10             # two digits
        divu $16, $8
        la   $4, text
        mflo $8
        mfhi $9
        addiu $8, $8, 48
        addiu $9, $9, 48
        sb   $8, 0($4)
        sb   $9, 1($4)
        li   $5, length
        li   $2, 1              # put
        syscall
hold:   li   $2, 0              # and it keeps them
        li   $4, -1
        syscall
        b    hold
        nop
.data
text:   .ascii "00 pages\n"
.equ    length, 9
