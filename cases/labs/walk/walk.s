# A solution of exercise 12, by rows: all words of a page are read before the next page. Of numbers that are as large the one in the
# lower column is kept, and of those in a column the first.
.equ    first, 400
.equ    rows, 100
.equ    columns, 64
.equ    word, 0x1234
.equ    array, 0x500000
.equ    page, 4096

start:  li   $4, 0x500          # bind row after row, to be read
        li   $5, first
        li   $6, 0
        li   $7, word
        li   $8, 0
        li   $16, rows
bind:   li   $2, 6              # bind
        syscall
        beq  $2, $0, bound
        move $17, $4
        li   $2, 0              # yield: the row isn't there yet
        li   $4, -1
        syscall
        b    bind
        move $4, $17
bound:  addiu $4, $4, 1
        addiu $16, $16, -1
        bne  $16, $0, bind
        addiu $5, $5, 1

walk:   li   $10, 0             # the sum
        li   $11, 0             # the largest number,
        li   $12, 0             # its row
        li   $13, 0             # and its column
        li   $16, array
        li   $17, 0             # row
row:    move $19, $16
        li   $18, 0             # column
column: bgezal $0, take
        lw   $8, 0($19)
        addiu $18, $18, 1
        sltiu $9, $18, columns
        bne  $9, $0, column
        addiu $19, $19, 4
        addiu $17, $17, 1
        sltiu $9, $17, rows
        bne  $9, $0, row
        addiu $16, $16, page

# The sum, and the row and the column of the largest number, in a line of the console.
        la   $16, text
        bgezal $0, digits
        move $8, $10
        bgezal $0, digits
        move $8, $12
        bgezal $0, digits
        move $8, $13
        li   $2, 1              # put
        la   $4, text
        li   $5, 27
        syscall
        li   $2, 2              # exit
        li   $4, 0
        syscall

# The word $8, of row $17 and column $18, is added, and kept if it is the largest.
take:   addu $10, $10, $8
        sltu $9, $8, $11
        bne  $9, $0, taken
        nop
        bne  $8, $11, larger
        sltu $9, $18, $13       # as large: in a lower column?
        beq  $9, $0, taken
        nop
larger: move $11, $8
        move $12, $17
        move $13, $18
taken:  jr   $31
        nop

# $8 as eight digits at $16, which goes on to the next number.
digits: li   $17, 8
digit:  srl  $9, $8, 28
        sltiu $2, $9, 10
        bne  $2, $0, low
        addiu $9, $9, 48
        addiu $9, $9, 39
low:    sb   $9, 0($16)
        sll  $8, $8, 4
        addiu $17, $17, -1
        bne  $17, $0, digit
        addiu $16, $16, 1
        jr   $31
        addiu $16, $16, 1

.data
text:   .ascii "                          \n"
