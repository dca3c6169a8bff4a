# Step 3: puts a letter three times, and yields after each. The letter is `a` in environment 0, and `b` in environment 1.
start:  li   $2, 20             # self: the environment's number
        syscall
        la   $8, letter
        addiu $9, $3, 97        # the letter `a`, and the one after it
        sb   $9, 0($8)
        li   $16, 3
again:  li   $2, 1              # put
        la   $4, letter
        li   $5, 1
        syscall
        li   $2, 0              # yield
        li   $4, -1             # to whoever is next
        syscall
        addiu $16, $16, -1
        bne  $16, $0, again
        nop
        li   $2, 2              # exit
        li   $4, 0
        syscall
.data
letter: .byte 0
