# Exercise 12, a walk. The program adds up the words of an array, whose rows have a page each, and finds the largest of them. It
# goes by columns: for each of them through all pages.
.equ    first, 400              # the number of the page of row 0. The checker has other numbers in these four lines
.equ    rows, 100
.equ    columns, 64             # words of a row, which are the first of its page
.equ    word, 0x1234            # the word by which a page may be read
.equ    array, 0x500000         # row 0, and each next row is a page further
.equ    page, 4096

start:  li   $4, 0x500          # bind row after row, to be read
        li   $5, first
        li   $6, 0
        li   $7, word
        li   $8, 0
        li   $16, rows
bind:   li   $2, 6              # bind
        syscall
        beq  $2, $0, bound
        move $17, $4
        li   $2, 0              # yield: the row isn't there yet
        li   $4, -1
        syscall
        b    bind
        move $4, $17
bound:  addiu $4, $4, 1
        addiu $16, $16, -1
        bne  $16, $0, bind
        addiu $5, $5, 1

# WRITE: the same with a tenth of the refills
walk:   li   $10, 0             # the sum
        li   $11, 0             # the largest number,
        li   $12, 0             # its row
        li   $13, 0             # and its column
        li   $16, array
        li   $18, 0             # column
column: move $19, $16
        li   $17, 0             # row
row:    lw   $8, 0($19)
        addiu $19, $19, page
        addu $10, $10, $8
        sltu $9, $11, $8
        beq  $9, $0, less
        nop
        move $11, $8
        move $12, $17
        move $13, $18
less:   addiu $17, $17, 1
        sltiu $9, $17, rows
        bne  $9, $0, row
        nop
        addiu $18, $18, 1
        sltiu $9, $18, columns
        bne  $9, $0, column
        addiu $16, $16, 4

# The sum, and the row and the column of the largest number, in a line of the console.
        la   $16, text
        bgezal $0, digits
        move $8, $10
        bgezal $0, digits
        move $8, $12
        bgezal $0, digits
        move $8, $13
        li   $2, 1              # put
        la   $4, text
        li   $5, 27
        syscall
        li   $2, 2              # exit
        li   $4, 0
        syscall

# $8 as eight digits at $16, which goes on to the next number.
digits: li   $17, 8
digit:  srl  $9, $8, 28
        sltiu $2, $9, 10
        bne  $2, $0, low
        addiu $9, $9, 48
        addiu $9, $9, 39
low:    sb   $9, 0($16)
        sll  $8, $8, 4
        addiu $17, $17, -1
        bne  $17, $0, digit
        addiu $16, $16, 1
        jr   $31
        addiu $16, $16, 1

.data
text:   .ascii "                          \n"
