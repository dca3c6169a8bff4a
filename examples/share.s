# Two environments share a page. Environment 0 allocates it and writes; the other binds it with the word for reading,
# and puts on its console what it finds.
.equ    page, 12                # its number, which both know
.equ    word, 0x5eed            # who presents this word may read the page
.equ    place, 0x500            # the VPN at which both see it

start:  li   $2, 20             # self
        syscall
        bne  $3, $0, borrow
        nop

lend:   li   $2, 3              # alloc: this page
        li   $4, page
        li   $5, word           # the read word, low half and high half
        li   $6, 0
        li   $7, 0              # no write word
        li   $8, 0
        syscall
        li   $2, 6              # bind, to store to it; the owner needs no word
        li   $4, place
        li   $5, page
        li   $6, 1
        syscall
        li   $8, 0x500000
        li   $9, 0x0a6968       # "hi\n", the lowest byte first
        sw   $9, 0($8)
        li   $2, 0              # yield
        li   $4, -1
        syscall
        b    leave
        nop

borrow: li   $2, 6              # bind, to read it
        li   $4, place
        li   $5, page
        li   $6, 0
        li   $7, word           # the word that is presented, low half and high half
        li   $8, 0
        syscall
        li   $2, 1              # put
        li   $4, 0x500000
        li   $5, 3
        syscall

leave:  li   $2, 2              # exit
        li   $4, 0
        syscall
