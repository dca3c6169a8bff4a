# Allocates a page, binds it, stores "page" at its end, and puts that from there; then a byte more, which is past the page;
# then the last byte of the page, once no number leads to it any more.
start:  addiu $4, $0, -1
        ori  $2, $0, 3          # alloc
        syscall
        addu $5, $3, $0
        ori  $2, $0, 6          # bind
        ori  $4, $0, 0x500
        ori  $6, $0, 1
        syscall
        lui  $8, 0x6567         # "page", the lowest byte first
        ori  $8, $8, 0x6170
        lui  $9, 0x50
        sw   $8, 0xffc($9)
        ori  $2, $0, 1          # put
        ori  $4, $9, 0xffc
        ori  $5, $0, 4
        syscall
        addu $16, $2, $0
        ori  $2, $0, 1
        ori  $5, $0, 5
        syscall
        addu $17, $2, $0
        ori  $2, $0, 7          # unbind
        ori  $4, $0, 0x500
        syscall
        ori  $2, $0, 1
        ori  $4, $9, 0xfff
        ori  $5, $0, 1
        syscall
        addu $18, $2, $0
stay:   b    stay
        nop
