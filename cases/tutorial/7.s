# Swaps both addresses of each packet, and sends it back.
start:  li   $2, 3              # alloc
        li   $4, -1
        syscall
        move $16, $3
        li   $2, 6              # bind
        li   $4, 0x500
        move $5, $16
        li   $6, 1
        syscall
        li   $2, 14             # claim
        la   $4, filter
        li   $5, 1              # one atom
        move $6, $16            # the page into which packets go
        syscall
        bne  $2, $0, failed
        nop
        li   $16, 0x00500000    # the first of the two buffers
wait:   lw   $17, 0($16)        # the packet's length, or 0
        bne  $17, $0, answer
        nop
        li   $2, 0              # yield
        li   $4, -1
        syscall
        b    wait
        nop
answer: lhu  $8, 4($16)
        lhu  $9, 10($16)
        sh   $9, 4($16)
        sh   $8, 10($16)
        lhu  $8, 6($16)
        lhu  $9, 12($16)
        sh   $9, 6($16)
        sh   $8, 12($16)
        lhu  $8, 8($16)
        lhu  $9, 14($16)
        sh   $9, 8($16)
        sh   $8, 14($16)
        li   $2, 19             # send
        addiu $4, $16, 4        # its bytes
        move $5, $17
        syscall
        sw   $0, 0($16)         # the buffer is empty again
        xori $16, $16, 0x800    # the next packet is in the other one
        b    wait
        nop
failed: move $4, $2
        li   $2, 2              # exit, with the call's code
        syscall
.data
filter: .half 12, 2             # the field at byte 12, of two bytes
        .word 0xffff, 0x88b5    # its bits, and their value
