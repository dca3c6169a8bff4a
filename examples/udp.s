# Sends back each UDP datagram to port 7: with addresses and ports swapped, which leaves the checksums as they are.
.equ    place, 0x00500000       # where the ring is seen
.equ    buffers, 0x800          # the bits in which the addresses of its two buffers differ

start:  li   $2, 3              # alloc: the lowest free page, which nobody else may bind
        li   $4, -1
        syscall
        bne  $2, $0, failed
        move $16, $3            # its number
        li   $2, 6              # bind: at the VPN of `place`
        li   $4, 0x500
        move $5, $16
        li   $6, 1              # to store to it too
        syscall
        bne  $2, $0, failed
        nop
        li   $2, 14             # claim: the packets of this filter
        la   $4, filter
        li   $5, 4              # atoms
        move $6, $16            # into this page
        syscall
        bne  $2, $0, failed
        nop
        la   $16, place         # the buffer of the next packet
wait:   lw   $17, 0($16)        # the packet's length, or 0
        bne  $17, $0, reply
        nop
        li   $2, 0              # yield, to whoever is next
        li   $4, -1
        syscall
        b    wait
        nop
reply:  addiu $4, $16, 4        # the link's addresses: three half-words each
        addiu $5, $16, 10
        li   $6, 3
        jal  swap
        nop
        addiu $4, $16, 30       # those of the network, two each
        addiu $5, $16, 34
        li   $6, 2
        jal  swap
        nop
        addiu $4, $16, 38       # and the ports
        addiu $5, $16, 40
        li   $6, 1
        jal  swap
        nop
        li   $2, 19             # send
        addiu $4, $16, 4
        move $5, $17
        syscall
        sw   $0, 0($16)         # the buffer is empty again
        xori $16, $16, buffers  # the next packet is in the other
        b    wait
        nop
swap:   lhu  $8, 0($4)          # $6 half-words from $4 on, with as many from $5 on
        lhu  $9, 0($5)
        sh   $9, 0($4)
        sh   $8, 0($5)
        addiu $4, $4, 2
        addiu $6, $6, -1
        bne  $6, $0, swap
        addiu $5, $5, 2
        jr   $31
        nop
failed: move $4, $2
        li   $2, 2              # exit, with the code
        syscall
.data
# A UDP datagram to port 7, over IPv4 without options. Atoms: offset and width of a field, mask, value.
filter: .half 12, 2
        .word 0xffff, 0x0800
        .half 14, 1
        .word 0xff, 0x45
        .half 23, 1
        .word 0xff, 17
        .half 36, 2
        .word 0xffff, 7
