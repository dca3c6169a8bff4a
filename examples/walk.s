# Walks over an array whose rows have a page each, and adds 1 to each word: environment 0 by rows, page after page, and
# environment 1 by columns, through all pages for each column. `aegis tlb` tells what either costs (docs/MACHINE.md).
.equ    rows, 100
.equ    columns, 16
.equ    array, 0x500000
.equ    page, 4096

start:  li   $16, rows
        li   $17, array
fetch:  li   $2, 3              # alloc: any page, for nobody else
        li   $4, -1
        li   $5, 0
        li   $6, 0
        li   $7, 0
        li   $8, 0
        syscall
        li   $2, 6              # bind it as the next row, to store to it
        srl  $4, $17, 12
        addu $5, $3, $0
        li   $6, 1
        syscall
        addiu $16, $16, -1
        bne  $16, $0, fetch
        addiu $17, $17, page

        li   $2, 20             # self
        syscall
        li   $8, page           # by columns: from a word to the next, words of a line, from a line to the next, and lines
        li   $9, rows
        li   $10, 4
        li   $11, columns
        bne  $3, $0, walk
        nop
        li   $8, 4              # by rows
        li   $9, columns
        li   $10, page
        li   $11, rows

walk:   li   $18, array
line:   addu $17, $18, $0
        addu $16, $9, $0
word:   lw   $12, 0($17)
        addiu $12, $12, 1
        sw   $12, 0($17)
        addiu $16, $16, -1
        bne  $16, $0, word      # and in the delay slot on to the next
        addu $17, $17, $8
        addiu $11, $11, -1
        bne  $11, $0, line
        addu $18, $18, $10

        li   $2, 2              # exit
        li   $4, 0
        syscall
