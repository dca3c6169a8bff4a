# Exercise 1, a pager. The program uses a region of sixteen pages, none of which is there when it starts. Page N of the
# region is at address 0x00500000 + N * 0x00020000. Your handler puts memory where the program loads or stores.
.equ    reads, 0x33ff           # a bit for each page that is read. The checker has other numbers in these two lines
.equ    writes, 0x0f0f          # and for each that is written

start:  # WRITE: name a handler of exceptions
        li   $7, reads
        li   $8, writes
        la   $5, 0x500000       # first each page is read and written, as the bits say
        li   $4, 0
        li   $2, 0              # a sum of what is loaded
        li   $3, 0              # how many loads and stores there were
first:  srlv $9, $7, $4
        andi $9, $9, 1
        beq  $9, $0, unread
        nop
        lw   $6, 8($5)          # a new page holds zeros
        addu $2, $2, $6
        addiu $3, $3, 1
unread: srlv $9, $8, $4
        andi $9, $9, 1
        beq  $9, $0, unwritten
        nop
        addiu $6, $4, 0x21
        sw   $6, 8($5)
        addiu $3, $3, 1
unwritten: addiu $4, $4, 1
        lui  $9, 2
        addu $5, $5, $9
        slti $9, $4, 16
        bne  $9, $0, first
        nop
        la   $5, 0x500000       # then each page that was written is read again
        li   $4, 0
second: srlv $9, $8, $4
        andi $9, $9, 1
        beq  $9, $0, other
        nop
        lw   $6, 8($5)
        addu $6, $6, $3
        addiu $3, $3, 1
        sll  $9, $2, 2          # sum * 5, and what is loaded, and how many there were
        addu $2, $2, $9
        addu $2, $2, $6
other:  addiu $4, $4, 1
        lui  $9, 2
        addu $5, $5, $9
        slti $9, $4, 16
        bne  $9, $0, second
        nop

# The table as letters, and the sum: `-` nothing is there, `c` the page is clean, `d` it is dirty.
        la   $16, table
        la   $17, text
        li   $4, 0
letter: lw   $8, 0($16)
        li   $9, 45             # -
        beq  $8, $0, put
        andi $8, $8, 1
        li   $9, 99             # c
        addu $9, $9, $8         # d
put:    sb   $9, 0($17)
        addiu $16, $16, 4
        addiu $17, $17, 1
        addiu $4, $4, 1
        slti $9, $4, 16
        bne  $9, $0, letter
        nop
        addiu $17, $17, 1
        li   $4, 8              # digits
digit:  srl  $8, $2, 28
        sltiu $9, $8, 10
        bne  $9, $0, low
        addiu $8, $8, 48
        addiu $8, $8, 39
low:    sb   $8, 0($17)
        sll  $2, $2, 4
        addiu $17, $17, 1
        addiu $4, $4, -1
        bne  $4, $0, digit
        nop
        li   $2, 1              # put
        la   $4, text
        li   $5, 26
        syscall
rest:   li   $2, 0              # yield, for ever, so that the report shows the bindings
        li   $4, -1
        syscall
        b    rest
        nop

# WRITE: the handler. Cause is in $1, the address to go on at in $26, the bad address in $27.

.data
# A word for each page of the region. 0: nothing is there. Else the page's number times 4, plus 2, plus 1 if it is dirty.
table:  .space 64
text:   .ascii "                         \n"
