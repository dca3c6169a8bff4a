# Step 5: allocates page 200 with a read word, stores there, and goes on yielding. borrower.s reads it.
start:  li   $2, 3              # alloc
        li   $4, 200            # this page
        li   $5, 0x5eed         # the read word, low half and high half
        li   $6, 0
        li   $7, 0              # no write word
        li   $8, 0
        syscall
        li   $2, 6              # bind: its owner needs no word
        li   $4, 0x500
        li   $5, 200
        li   $6, 1              # to store to it too
        syscall
        li   $8, 0x00500000
        li   $9, 0x000a6968     # "hi\n"
        sw   $9, 0($8)
again:  li   $2, 0              # yield
        li   $4, -1
        syscall
        b    again
        nop
