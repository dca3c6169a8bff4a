# Makes the array, row after row. A row is a page, which is lent to be read once its words are there. At last it only yields.
.equ    first, 400              # the number of the page of row 0. The checker has other numbers in these lines
.equ    rows, 100
.equ    columns, 64             # words of a row
.equ    word, 0x1234            # the read word
.equ    seed, 5
.equ    largest, 0xc0000000     # the largest number, and two places where it stands
.equ    row1, 20
.equ    column1, 40
.equ    row2, 70
.equ    column2, 10

start:  li   $16, first         # the page
        li   $17, 0             # the row
        li   $18, seed
        li   $19, 1664525
        li   $20, 1013904223
        li   $21, largest
row:    li   $2, 3              # alloc, for nobody else
        move $4, $16
        li   $5, 0
        li   $6, 0
        li   $7, 0
        li   $8, 0
        syscall
        li   $2, 6              # bind, to store to it
        li   $4, 0x500
        move $5, $16
        li   $6, 1
        syscall
        li   $9, 0x500000
        li   $10, columns
fill:   multu $18, $19
        mflo $18
        addu $18, $18, $20
        srl  $11, $18, 1
        sw   $11, 0($9)
        addiu $10, $10, -1
        bne  $10, $0, fill
        addiu $9, $9, 4
        li   $8, row1
        li   $9, column1
        bgezal $0, plant
        nop
        li   $8, row2
        li   $9, column2
        bgezal $0, plant
        nop
        li   $2, 5              # recap: from here on it may be read
        move $4, $16
        li   $5, word
        li   $6, 0
        li   $7, 0
        li   $8, 0
        syscall
        addiu $17, $17, 1
        sltiu $8, $17, rows
        bne  $8, $0, row
        addiu $16, $16, 1
rest:   li   $2, 0              # yield
        li   $4, -1
        syscall
        b    rest
        nop

# In row $8 the largest number goes to column $9.
plant:  bne  $17, $8, planted
        sll  $9, $9, 2
        li   $8, 0x500000
        addu $9, $9, $8
        sw   $21, 0($9)
planted: jr  $31
        nop
