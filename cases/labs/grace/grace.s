# A solution of exercise 5. The program changes two words that another environment reads, and between the two it works for
# longer than its slice. Nobody may see the one changed and the other not: so the end of a slice has to wait for it.
.equ    units, 10               # how often it does so. The checker has other numbers in these two lines
.equ    work, 15                # rounds of four ticks in each
.equ    page, 20                # the page, and the word that lets others read it
.equ    word, 0x5eed
.equ    inside, 0x1800          # in the context page, which $0 reaches: 1 in the midst of a unit
.equ    over, 0x1804            # 1 if the slice ended there

start:  li   $2, 8              # context: ends (2) are handled at $5
        li   $4, 2
        la   $5, ended
        syscall
        li   $2, 3              # alloc
        li   $4, page
        li   $5, word
        li   $6, 0
        li   $7, 0
        li   $8, 0
        syscall
        li   $2, 6              # bind, to store to it
        li   $4, 0x500
        li   $5, page
        li   $6, 1
        syscall
        li   $16, 0             # the unit
        li   $17, units
        la   $18, 0x500000
        li   $19, 0             # a sum, by which the checker sees that no register is lost

unit:   addiu $16, $16, 1
        li   $8, 1
        sw   $8, inside($0)     # from here on the handler only takes a note
        li   $8, work
        sw   $16, 0($18)
busy:   addu $19, $19, $8
        addiu $8, $8, -1
        bne  $8, $0, busy
        nop
        sw   $19, 8($18)
        sw   $16, 4($18)
        sw   $0, inside($0)     # from here on it yields itself
        lw   $8, over($0)
        beq  $8, $0, goes_on
        nop
        sw   $0, over($0)
        li   $2, 0              # yield
        li   $4, -1
        syscall
goes_on:
        bne  $16, $17, unit
        nop
rest:   li   $2, 0              # yield, for ever, so that the page stays
        li   $4, -1
        syscall
        b    rest
        nop

# The address to go on at is in $26, and what was in $26 stands at 0x1050.
ended:  addiu $29, $29, -20
        sw   $2, 0($29)
        sw   $3, 4($29)         # a yield answers in $2 and $3
        sw   $4, 8($29)
        sw   $26, 12($29)       # where the program goes on
        lw   $26, 0x1050($0)    # $26 as it was
        sw   $26, 16($29)
        lw   $2, inside($0)
        bne  $2, $0, note
        nop
        li   $2, 0              # yield
        li   $4, -1
        syscall
        b    back
        nop
note:   sw   $2, over($0)       # in grace it goes on, up to the unit's end
back:   lw   $2, 0($29)
        lw   $3, 4($29)
        lw   $4, 8($29)
        lw   $26, 12($29)
        addiu $29, $29, 20
        jr   $26
        lw   $26, -4($29)       # runs before the jump is over
