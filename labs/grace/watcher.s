# Looks at the two words in each of its slices. It puts a point for each new number that it sees in both. Where they differ it
# puts what it sees of each, as letters, and exits with 1.
.equ    page, 20
.equ    word, 0x5eed

start:  li   $2, 6              # bind, to read it
        li   $4, 0x500
        li   $5, page
        li   $6, 0
        li   $7, word
        li   $8, 0
        syscall
        beq  $2, $0, bound
        nop
        li   $2, 0              # not yet there: yield
        li   $4, -1
        syscall
        b    start
        nop
bound:  li   $18, 0x500000
        li   $16, 0
look:   lw   $8, 0($18)
        lw   $9, 4($18)
        bne  $8, $9, torn
        nop
        beq  $8, $16, same
        move $16, $8
        li   $2, 1              # put
        la   $4, text
        li   $5, 1
        syscall
same:   li   $2, 0              # yield
        li   $4, -1
        syscall
        b    look
        nop
torn:   la   $4, text
        addiu $8, $8, 64
        sb   $8, 1($4)
        addiu $9, $9, 64
        sb   $9, 2($4)
        li   $2, 1              # put
        addiu $4, $4, 1
        li   $5, 2
        syscall
        li   $2, 2              # exit
        li   $4, 1
        syscall
.data
text:   .ascii ".  "
