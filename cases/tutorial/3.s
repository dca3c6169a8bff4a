# The same, but environment 0 gives its time to environment 1, which accepts it.
start:  li   $2, 20             # self: the environment's number
        syscall
        la   $8, letter
        addiu $9, $3, 97        # the letter `a`, and the one behind it
        sb   $9, 0($8)
        li   $2, 9              # accept
        li   $4, 1              # environment 0
        syscall
        li   $16, 3
again:  li   $2, 1              # put
        la   $4, letter
        li   $5, 1
        syscall
        li   $2, 0              # yield
        li   $4, 1              # to environment 1, which is refused in environment 1 itself
        syscall
        beq  $2, $0, given
        nop
        li   $2, 0              # yield
        li   $4, -1             # to whoever is next
        syscall
given:  addiu $16, $16, -1
        bne  $16, $0, again
        nop
        li   $2, 2              # exit
        li   $4, 0
        syscall
.data
letter: .byte 0
