# Step 5: binds page 200 by its read word, and puts what it finds.
start:  li   $2, 6              # bind
        li   $4, 0x500
        li   $5, 200
        li   $6, 0              # to read it
        li   $7, 0x5eed         # the word that is presented
        li   $8, 0
        syscall
        beq  $2, $0, bound
        nop
        li   $2, 0              # not allocated yet: yield, and try again
        li   $4, -1
        syscall
        b    start
        nop
bound:  li   $2, 1              # put
        li   $4, 0x00500000
        li   $5, 3
        syscall
        li   $2, 2              # exit
        li   $4, 0
        syscall
