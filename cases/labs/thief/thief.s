# A solution of exercise 11. It owes eight quanta, and eight of its turns are forfeited, whatever slot they are in.
.equ    most, 8                 # quanta of grace that it may owe

start:  li   $2, 8              # context: ends
        li   $4, 2
        la   $5, ended
        syscall
steal:  li   $2, 13             # query: my excess
        li   $4, 7
        syscall
        slti $8, $3, most
        bne  $8, $0, steal
        nop
        li   $2, 11             # take
        li   $4, 2
        syscall
        li   $2, 1              # put
        la   $4, digit
        li   $5, 1
        syscall
        li   $2, 8              # context: ends aren't handled any more
        li   $4, 2
        li   $5, 0
        syscall
rest:   li   $2, 0              # yield, for ever
        li   $4, -1
        syscall
        b    rest
        nop
ended:  jr   $26
        nop
.data
digit:  .ascii "8"
