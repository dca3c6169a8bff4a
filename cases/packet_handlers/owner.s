# Allocates page 12 with the write word 9, claims all packets into it, and gives the claim a handler. It doesn't bind the page. The
# handler adds the length of each packet to the first word of the page, and replies with the page's first 14 bytes.
start:  ori  $4, $0, 12         # 0
        ori  $7, $0, 9          # the write word
        ori  $2, $0, 3          # alloc
        syscall
        la   $4, all            # 4
        ori  $5, $0, 1
        ori  $6, $0, 12
        ori  $2, $0, 14         # claim
        syscall                 # 9
        ori  $4, $0, 0
        la   $5, handler        # 11
        ori  $6, $0, 6
        ori  $2, $0, 16         # handler
        syscall                 # 15
        addiu $4, $0, -1
again:  ori  $2, $0, 0          # yield
        syscall                 # 18
        b    again
        nop
handler: lw  $8, 0x1000($0)
        addu $8, $8, $4
        sw   $8, 0x1000($0)
        ori  $4, $0, 0x1000
        ori  $5, $0, 14
        syscall
.data
all:    .half 0, 1
        .word 0, 0
