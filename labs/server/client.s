# A client of the server, environment 0. It passes a number, prints the total that it gets back, and passes the next.
.equ    calls, 4                # how often. The checker has other numbers in these two lines
.equ    factor, 5               # its first number is this times its own; each next one is greater by one

start:  li   $2, 8              # context: asynchronous transfers (3) enter at $5
        li   $4, 3
        la   $5, answer
        syscall
        li   $2, 20             # self
        syscall
        li   $16, factor
        mult $16, $3
        mflo $16                # the number that it passes
        li   $17, calls         # how many calls are to come
ask:    li   $2, 9              # accept: the server, for its answer
        li   $4, 1
        syscall
        li   $2, 10             # transfer: to the server
        li   $4, 0
        li   $5, 1              # synchronous: the slot goes along
        syscall
        beq  $2, $0, lost       # granted, and it goes on here without an answer
        addiu $8, $2, -8
        beq  $8, $0, lost       # the server is dead
        nop
        li   $2, 0              # it isn't open, or has the slot still: yield, and ask again
        li   $4, -1
        syscall
        b    ask
        nop

# The total is in $16. What this client had in $16 and $17 is in the entry area.
answer: la   $5, end
        li   $8, 10
digit:  divu $16, $8
        mflo $16
        mfhi $9
        addiu $9, $9, 48
        addiu $5, $5, -1
        bne  $16, $0, digit
        sb   $9, 0($5)          # runs before the branch
        move $4, $5             # put
        la   $5, end+1
        subu $5, $5, $4
        li   $2, 1
        syscall
        lw   $16, 0x10bc($0)
        lw   $17, 0x10c0($0)
        addiu $16, $16, 1
        addiu $17, $17, -1
        bne  $17, $0, ask
        nop
        li   $2, 2              # exit
        li   $4, 0
        syscall
lost:   li   $2, 2              # exit with 1
        li   $4, 1
        syscall
.data
        .space 10
end:    .ascii " "
