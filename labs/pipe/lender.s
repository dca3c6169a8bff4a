# Allocates the page, and yields for ever.
.equ    page, 12
.equ    word, 0x5eed
start:  li   $2, 3              # alloc: who has the word may read it, and store to it
        li   $4, page
        li   $5, word
        li   $6, 0
        li   $7, word
        li   $8, 0
        syscall
rest:   li   $2, 0              # yield
        li   $4, -1
        syscall
        b    rest
        nop
