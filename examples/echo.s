# Sends back each packet that is for it: with its two addresses swapped, so that it goes to whoever sent it.
.equ    place, 0x00500000       # where the ring is seen
.equ    buffers, 0x800          # the bits in which the addresses of its two buffers differ

start:  li   $2, 3              # alloc: the lowest free page, which nobody else may bind
        li   $4, -1
        syscall
        bne  $2, $0, failed
        move $16, $3            # its number
        li   $2, 6              # bind: at the VPN of `place`
        li   $4, 0x500
        move $5, $16
        li   $6, 1              # to store to it too
        syscall
        bne  $2, $0, failed
        nop
        li   $2, 14             # claim: the packets of this filter
        la   $4, filter
        li   $5, 3              # atoms
        move $6, $16            # into this page
        syscall
        bne  $2, $0, failed
        nop
        la   $16, place         # the buffer of the next packet
wait:   lw   $17, 0($16)        # the packet's length, or 0
        bne  $17, $0, reply
        nop
        li   $2, 0              # yield, to whoever is next
        li   $4, -1
        syscall
        b    wait
        nop
reply:  lhu  $8, 4($16)         # swap: whom it is for, and who sent it
        lhu  $9, 10($16)
        sh   $9, 4($16)
        sh   $8, 10($16)
        lhu  $8, 6($16)
        lhu  $9, 12($16)
        sh   $9, 6($16)
        sh   $8, 12($16)
        lhu  $8, 8($16)
        lhu  $9, 14($16)
        sh   $9, 8($16)
        sh   $8, 14($16)
        li   $2, 19             # send
        addiu $4, $16, 4
        move $5, $17
        syscall
        sw   $0, 0($16)         # the buffer is empty again
        xori $16, $16, buffers  # the next packet is in the other
        b    wait
        nop
failed: move $4, $2
        li   $2, 2              # exit, with the code
        syscall
.data
# A packet for the address 02:00:00:00:00:01, of the kind 0x88b5. Atoms: offset and width of a field, mask, value.
filter: .half 0, 4
        .word 0xffffffff, 0x02000000
        .half 4, 2
        .word 0xffff, 0x0001
        .half 12, 2
        .word 0xffff, 0x88b5
