# ExOS, remote procedure calls. A client calls a server by transfers: the argument goes over in a register, and so does the
# result, all in the client's time.
#
# Who decides what
#
#   The kernel hands over the processor. A transfer enters the server at the place that the server named, with the client's
#   registers and for the rest of the client's slice. Neither side can enter the other anywhere else, or while it doesn't
#   accept that. The kernel keeps the server's own registers in its context page, and that is all it does.
#
#   The programs decide the rest: which register has the argument and which the result, what the procedure is, who keeps which
#   registers, and what to do if a call is refused. The kernel has no messages and no queues of callers.
#
# How the kernel protects
#
#   An environment is entered only by those in its mask, and an entry leaves the mask 0. So the server is alone with its work
#   until it accepts again, and the client is entered by the server alone, and only while it waits. The server reads the
#   caller's number from its context page, where the kernel stored it, so a client can't pass for another.
#
# A call, step by step
#
#   the client  accepts the server, puts i into $16, and transfers. By a synchronous transfer its slot goes along, so it doesn't
#               run before it is answered.
#   the server  is entered at `serve` with i in $16, and makes i * i of it. It accepts the client, and transfers back.
#   the client  is entered at `reply` with i * i in $16. All other registers are the server's. Its own are in its entry area.
#
# Two orders count
#
#   The server accepts before it answers. That is right for one client, who waits, so that nobody can come in between. With two
#   clients a server answers first, and accepts at its next turn.
#
#   The client has one slot, so it runs on behind its call only if the call was refused. If it was granted and the client runs
#   all the same, the slot came back without an answer: the server is dead, or has dropped it.
#
# A slice may end in the middle of a call. Then the server goes on in whichever of the two slots is next, and answers there. So
# the two may have exchanged slots for a while, and each holds one whenever the client runs.
#
# The run
#
#   Environment 0 calls environment 1 a hundred times, with i from 1 to 100. It adds up the squares, and prints how many calls it
#   made, and the sum. The server goes on yielding.

# Calls of the kernel: the number is in $2, arguments are in $4 to $8; the answer's code is in $2, its value in $3
.equ call_yield,        0       # $4 an environment, or anybody
.equ call_put,          1       # $4 address, $5 length
.equ call_exit,         2       # $4 code
.equ call_context,      8       # $4 kind, $5 the handler's address
.equ call_accept,       9       # $4 a bit for each environment
.equ call_transfer,     10      # $4 an environment, $5 whether its slot goes along
.equ call_self,         20
.equ anybody,           -1
.equ kind_synchronous,  4       # the entry for synchronous transfers
.equ synchronous,       1
.equ no_environment,    8       # an answer: there is no such environment, or it is dead

# The context page: what the kernel keeps of the program when a transfer enters it
.equ entry_17,          0x10c0
.equ entry_18,          0x10c4
.equ entry_caller,      0x1108

# The environments, and their bits in a mask
.equ server,            1
.equ client_bit,        1
.equ server_bit,        2

.equ calls,             100

start:  li   $2, call_self
        syscall
        bne  $3, $0, offer
        nop

# --- Environment 0, the client ------------------------------------------------------------------------------------------
# $16 the argument and then the result, $17 i, $18 the sum

        li   $2, call_context
        li   $4, kind_synchronous
        la   $5, reply
        syscall
        li   $17, 0
        li   $18, 0

next:   addiu $17, $17, 1
call:   move $16, $17
        li   $2, call_accept    # an entry leaves the mask 0, so it accepts before each call
        li   $4, server_bit
        syscall
        li   $2, call_transfer
        li   $4, server
        li   $5, synchronous
        syscall
        beq  $2, $0, lost       # granted, and yet it runs here
        addiu $8, $0, no_environment
        beq  $2, $8, lost
        nop
        li   $2, call_yield     # the server doesn't accept yet: once more in the next slice
        li   $4, anybody
        syscall
        b    call
        nop

# The answer. $17 and $18 are loaded from where the kernel kept them. $29 is the server's: there is no use of a stack here
reply:  lw   $17, entry_17($0)
        lw   $18, entry_18($0)
        li   $8, calls
        bne  $17, $8, next
        addu $18, $18, $16      # runs before the branch is over

        li   $2, call_put
        la   $4, name
        li   $5, name_length
        syscall
        move $4, $17
        jal  print
        ori  $5, $0, space
        move $4, $18
        jal  print
        ori  $5, $0, line_feed
        li   $2, call_exit
        li   $4, 0
        syscall

lost:   li   $2, call_exit
        li   $4, 1
        syscall

# --- Environment 1, the server ------------------------------------------------------------------------------------------

offer:  li   $2, call_context
        li   $4, kind_synchronous
        la   $5, serve
        syscall
        li   $2, call_accept    # only behind that: who accepts has an entry
        li   $4, client_bit
        syscall

rest:   li   $2, call_yield
        li   $4, anybody
        syscall
        b    rest
        nop

# The procedure. All registers are the client's here, and those that aren't changed come back to it as they were
serve:  multu $16, $16
        mflo $16
        li   $2, call_accept
        li   $4, client_bit
        syscall
        li   $2, call_transfer
        lw   $4, entry_caller($0)
        li   $5, synchronous
        syscall
        b    rest               # it goes on here at its next turn, or at `serve` if it is called before
        nop

# --- The console --------------------------------------------------------------------------------------------------------
# Puts the number $4 in decimal, and behind it the character $5. The digits are made from the last one on.

print:  la   $6, behind
        sb   $5, 0($6)
        li   $8, 10
digit:  divu $4, $8
        mflo $4                 # what is left
        mfhi $9                 # the last digit
        addiu $9, $9, zero
        addiu $6, $6, -1
        bne  $4, $0, digit
        sb   $9, 0($6)
        li   $2, call_put
        move $4, $6             # from the first digit on
        la   $5, behind+1
        subu $5, $5, $6
        syscall
        jr   $31
        nop

.equ line_feed,         0x0a
.equ space,             0x20
.equ zero,              0x30    # the digit 0
.equ name_length,       4
.data
name:   .ascii "rpc "
digits: .space 10
behind: .byte 0
