# Exercise 5, an overrunner. The program changes two words that another environment reads, and between the two it works for
# longer than its slice. Nobody may see the one changed and the other not: so the end of a slice has to wait for it.
.equ    units, 10               # how often it does so. The checker has other numbers in these two lines
.equ    work, 15                # rounds of four ticks in each
.equ    page, 20                # the page, and the word that lets others read it
.equ    word, 0x5eed

start:  # WRITE: name a handler of the ends of slices
        li   $2, 3              # alloc
        li   $4, page
        li   $5, word
        li   $6, 0
        li   $7, 0
        li   $8, 0
        syscall
        li   $2, 6              # bind, to store to it
        li   $4, 0x500
        li   $5, page
        li   $6, 1
        syscall
        li   $16, 0             # the unit
        li   $17, units
        la   $18, 0x500000
        li   $19, 0             # a sum, by which the checker sees that no register is lost

unit:   addiu $16, $16, 1
        # WRITE: from here on the program mustn't be stopped
        li   $8, work
        sw   $16, 0($18)
busy:   addu $19, $19, $8
        addiu $8, $8, -1
        bne  $8, $0, busy
        nop
        sw   $19, 8($18)
        sw   $16, 4($18)
        # WRITE: from here on it may be; if the slice is over, yield
        bne  $16, $17, unit
        nop
rest:   li   $2, 0              # yield, for ever, so that the page stays
        li   $4, -1
        syscall
        b    rest
        nop

# WRITE: the handler. The address to go on at is in $26, and what was in $26 stands at 0x1050.
