# Claims packets that begin with 0, which is claim 0, and all packets, claim 1, into a page of its own, which is bound at VPN
# 0x500. It puts the bytes 00, 11, 22 .. ff there, and gives claim 1 the words from `handler` to `done` as its handler. Then it
# loads the first four words of the page again and again, and both counts of packets.
start:  addiu $4, $0, -1
        ori  $2, $0, 3          # alloc
        syscall
        ori  $4, $0, 0x500
        move $5, $3
        ori  $6, $0, 1
        ori  $2, $0, 6          # bind
        syscall
        move $6, $5             # the page
        la   $4, zeros
        ori  $5, $0, 1          # an atom
        ori  $2, $0, 14         # claim
        syscall
        la   $4, all
        ori  $2, $0, 14
        syscall
        move $4, $3
        la   $5, handler
        la   $6, done
        subu $6, $6, $5
        srl  $6, $6, 2          # how many words
        ori  $2, $0, 16         # handler
        syscall
        move $8, $2
        lui  $9, 0x50
        li   $10, 0x33221100
        sw   $10, 0($9)
        li   $10, 0x77665544
        sw   $10, 4($9)
        li   $10, 0xbbaa9988
        sw   $10, 8($9)
        li   $10, 0xffeeddcc
        sw   $10, 12($9)
look:   lw   $16, 0($9)
        lw   $17, 4($9)
        lw   $18, 8($9)
        lw   $19, 12($9)
        lw   $20, 0x1140($0)
        lw   $21, 0x1144($0)
        b    look
        nop
handler:
