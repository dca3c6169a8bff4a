# Has the kernel send back each packet that is for it, by a handler, with its two addresses swapped, so that it goes to whoever
# sent it. Of the bytes after the kind of a packet, at most eight go back. The program itself gives its slot away.

start:  li   $2, 3              # alloc: the lowest free page, which the handler has for its reply
        li   $4, -1
        syscall
        bne  $2, $0, failed
        move $6, $3             # its number
        li   $2, 14             # claim: the packets of this filter
        la   $4, filter
        li   $5, 3              # atoms
        syscall
        bne  $2, $0, failed
        move $4, $3             # the claim
        li   $2, 16             # handler: from here on these words take its packets
        la   $5, handler
        la   $6, done
        subu $6, $6, $5
        srl  $6, $6, 2          # how many they are
        syscall
        bne  $2, $0, failed
        nop
        li   $2, 12             # drop: slot 0 is empty then, and the program doesn't run again
        li   $4, 0
        syscall
        li   $2, 0              # yield, to whoever is next
        li   $4, -1
        syscall
failed: move $4, $2
        li   $2, 2              # exit, with the code
        syscall

# The handler finds the packet from address 0 on, its length in $4, and the page from 0x1000 on.
handler: move $16, $4
        lhu  $8, 6($0)          # who sent it, and whom it is for
        lhu  $9, 0($0)
        sh   $8, 0x1000($0)
        sh   $9, 0x1006($0)
        lhu  $8, 8($0)
        lhu  $9, 2($0)
        sh   $8, 0x1002($0)
        sh   $9, 0x1008($0)
        lhu  $8, 10($0)
        lhu  $9, 4($0)
        sh   $8, 0x1004($0)
        sh   $9, 0x100a($0)
        lhu  $8, 12($0)         # its kind
        ori  $5, $0, 14         # how long the reply is
        sh   $8, 0x100c($0)
        beq  $16, $5, reply     # a handler can't go back: each byte has its own test
        ori  $4, $0, 0x1000     # where the reply is
        lbu  $8, 14($0)
        addiu $5, $5, 1
        beq  $16, $5, reply
        sb   $8, 0x100e($0)     # runs before the branch is over
        lbu  $8, 15($0)
        addiu $5, $5, 1
        beq  $16, $5, reply
        sb   $8, 0x100f($0)
        lbu  $8, 16($0)
        addiu $5, $5, 1
        beq  $16, $5, reply
        sb   $8, 0x1010($0)
        lbu  $8, 17($0)
        addiu $5, $5, 1
        beq  $16, $5, reply
        sb   $8, 0x1011($0)
        lbu  $8, 18($0)
        addiu $5, $5, 1
        beq  $16, $5, reply
        sb   $8, 0x1012($0)
        lbu  $8, 19($0)
        addiu $5, $5, 1
        beq  $16, $5, reply
        sb   $8, 0x1013($0)
        lbu  $8, 20($0)
        addiu $5, $5, 1
        beq  $16, $5, reply
        sb   $8, 0x1014($0)
        lbu  $8, 21($0)
        addiu $5, $5, 1
        sb   $8, 0x1015($0)
reply:  syscall
done:
.data
# A packet for the address 02:00:00:00:00:01, of the kind 0x88b5. Atoms: offset and width of a field, mask, value.
filter: .half 0, 4
        .word 0xffffffff, 0x02000000
        .half 4, 2
        .word 0xffff, 0x0001
        .half 12, 2
        .word 0xffff, 0x88b5
