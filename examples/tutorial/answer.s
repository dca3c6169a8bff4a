# Step 8: the kernel answers each packet of the kind 0x88b5 by itself, with the packet's first 14 bytes, its addresses swapped.
# The program only waits until three have come.
start:  li   $2, 3              # alloc
        li   $4, -1
        syscall
        move $6, $3             # the page over which the handler runs
        li   $2, 14             # claim
        la   $4, filter
        li   $5, 1
        syscall
        bne  $2, $0, failed
        move $4, $3             # the claim
        li   $2, 16             # handler
        la   $5, handler        # the words from here
        la   $6, done
        subu $6, $6, $5
        srl  $6, $6, 2          # how many they are
        syscall
        bne  $2, $0, failed
        nop
        li   $16, 3
wait:   lw   $8, 0x1140($0)     # how many packets came
        bne  $8, $16, wait
        nop
        li   $4, 0
        li   $2, 2              # exit
        syscall
failed: move $4, $2
        li   $2, 2
        syscall

# The handler. Its memory is the packet, from 0 on, and the page, from 0x1000 on.
handler: lhu $8, 6($0)          # who sent it
        sh   $8, 0x1000($0)
        lhu  $8, 8($0)
        sh   $8, 0x1002($0)
        lhu  $8, 10($0)
        sh   $8, 0x1004($0)
        lhu  $8, 0($0)          # whom it is for
        sh   $8, 0x1006($0)
        lhu  $8, 2($0)
        sh   $8, 0x1008($0)
        lhu  $8, 4($0)
        sh   $8, 0x100a($0)
        lhu  $8, 12($0)         # its kind
        sh   $8, 0x100c($0)
        ori  $4, $0, 0x1000     # the reply: from here,
        ori  $5, $0, 14         # of this length
        syscall
done:
.data
filter: .half 12, 2
        .word 0xffff, 0x88b5
