# Makes each kernel call once at least, and exits with how many were refused.
start:  li   $20, 0
        li   $2, 20             # self
        jal  call
        nop
        li   $2, 13             # query: how many pages are free
        li   $4, 0
        jal  call
        nop
        jal  alloc              # the page that is taken at tick 500
        nop
        jal  alloc              # the ring
        nop
        move $16, $3
        jal  alloc              # the backup
        nop
        move $17, $3
        li   $2, 6              # bind, and a store
        li   $4, 0x500
        move $5, $16
        li   $6, 1
        jal  call
        nop
        li   $8, 0x500800
        sw   $8, 0xc($8)
        li   $2, 5              # recap
        move $4, $16
        li   $5, 7
        jal  call
        nop
        li   $2, 18             # backup
        move $4, $17
        jal  call
        nop
        li   $2, 14             # claim
        la   $4, filter
        li   $5, 1
        move $6, $16
        jal  call
        nop
        move $18, $3
        li   $2, 16             # handler
        move $4, $18
        la   $5, handler
        li   $6, 4
        jal  call
        nop
        li   $2, 17             # line
        li   $4, 3
        li   $5, 1
        jal  call
        nop
        li   $2, 8              # context: exceptions
        li   $4, 0
        la   $5, start
        jal  call
        nop
        li   $2, 9              # accept
        li   $4, 2
        jal  call
        nop
        li   $2, 19             # send
        la   $4, packet
        li   $5, 14
        jal  call
        nop
        li   $2, 1              # put
        li   $5, 5
        jal  call
        nop
        li   $2, 11             # take, and drop
        li   $4, 2
        jal  call
        nop
        li   $2, 12
        jal  call
        nop
        li   $2, 0              # yield to the other
        li   $4, 1
        jal  call
        nop
        li   $2, 10             # transfer to it
        li   $4, 1
        li   $5, 0
        jal  call
        nop
wait:   li   $2, 0              # yield, until the clock says 600
        li   $4, -1
        jal  call
        nop
        li   $2, 21
        jal  call
        nop
        sltiu $9, $3, 600
        bne  $9, $0, wait
        nop
        li   $2, 15             # unclaim
        move $4, $18
        jal  call
        nop
        li   $2, 7              # unbind
        li   $4, 0x500
        jal  call
        nop
        li   $2, 4              # free
        move $4, $16
        jal  call
        nop
        li   $2, 2              # exit
        move $4, $20
        syscall
alloc:  li   $2, 3
        li   $4, -1
        li   $5, 5
        li   $6, 0
        li   $7, 9
        li   $8, 0
call:   syscall                 # and count a refusal
        sltu $9, $0, $2
        jr   $31
        addu $20, $20, $9
handler: ori $4, $0, 0x1000     # 16 bytes of the page go back
        ori  $5, $0, 16
        sw   $4, 0x1000($0)
        syscall
.data
filter: .half 0, 1
        .word 0xff, 0x41
packet: .ascii "hello, hello, hello"
