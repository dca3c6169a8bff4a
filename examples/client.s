# A client of server.s, which is environment 0. It has three tickets handed out to it, one after the other, and prints them.
start:  li   $2, 8              # context: asynchronous transfers (3) enter at $5
        li   $4, 3
        la   $5, answer
        syscall
        li   $17, 3             # how many it still wants
ask:    li   $2, 9              # accept: environment 0, for its answer. An entry leaves this mask 0, too
        li   $4, 1
        syscall
        li   $2, 10             # transfer: to environment 0
        li   $4, 0
        li   $5, 1              # synchronous: the slot goes along
        syscall
        beq  $2, $0, lost
        addiu $8, $2, -8
        beq  $8, $0, lost
        nop
        li   $2, 0              # the server isn't open (9), or has this one's slot still (12): yield, and ask again
        li   $4, -1
        syscall
        b    ask
        nop

# The ticket is in $16. All other registers are the server's; what the client had in them is in the entry area.
answer: lw   $17, 0x10c0($0)
        la   $8, text
        addiu $9, $16, 48       # its digit
        sb   $9, 0($8)
        li   $2, 1              # put
        move $4, $8
        li   $5, 2
        syscall
        addiu $17, $17, -1
        bne  $17, $0, ask
        nop
        li   $2, 2              # exit
        li   $4, 0
        syscall

# There is no server any more (8). Or the call was granted (0), and yet it goes on here: it has its slot again without an
# answer, since the server is dead, or has dropped the slot.
lost:   li   $2, 2              # exit with 1
        li   $4, 1
        syscall
.data
text:   .ascii "0 "
