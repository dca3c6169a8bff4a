# A solution of exercise 2. Environment 0 writes, environment 1 reads, and both run this program. The bytes go through a page that
# both see: environment 0 allocates it, and environment 1 binds it by a word. The byte 0 is the end.
.equ    length, 200             # how many bytes the writer makes. The checker has other numbers in these three lines
.equ    step, 7                 # and from each letter to the next so many letters of the alphabet
.equ    first, 3
.equ    page, 12                # the page, which both know
.equ    word, 0x5eed            # and the word that lets the reader store to it too: each keeps its own count there
.equ    place, 0x500            # the VPN at which both see it

# The page: how many bytes were written in all, how many were read in all, and then a buffer of 64 bytes.
.equ    written, 0x500000
.equ    taken, 0x500004
.equ    buffer, 0x500040
.equ    room, 64

start:  li   $2, 20             # self
        syscall
        bne  $3, $0, reader
        nop

writer: jal  lend
        nop
        li   $16, length
        li   $17, first
next:   addiu $4, $17, 97       # a letter
        jal  send
        nop
        addiu $17, $17, step
        li   $8, 26
        divu $17, $8
        mfhi $17
        addiu $16, $16, -1
        bne  $16, $0, next
        nop
        li   $4, 0              # the end
        jal  send
        nop
        jal  close
        nop
        b    leave
        nop

reader: jal  borrow
        nop
more:   jal  receive
        nop
        beq  $2, $0, leave
        nop
        la   $4, letter
        sb   $2, 0($4)
        li   $2, 1              # put
        li   $5, 1
        syscall
        b    more
        nop

leave:  li   $2, 2              # exit
        li   $4, 0
        syscall

# The reader's and the writer's side of the pipe.
lend:   li   $2, 3              # alloc: this page
        li   $4, page
        li   $5, 0              # no read word
        li   $6, 0
        li   $7, word           # the write word
        li   $8, 0
        syscall
        li   $2, 6              # bind
        li   $4, place
        li   $5, page
        li   $6, 1
        syscall
        jr   $31
        nop

borrow: li   $2, 6              # bind, to store to it too
        li   $4, place
        li   $5, page
        li   $6, 1
        li   $7, word
        li   $8, 0
        syscall
        beq  $2, $0, bound
        nop
        li   $2, 0              # not yet there: yield
        li   $4, -1
        syscall
        b    borrow
        nop
bound:  jr   $31
        nop

send:   move $9, $4
full:   la   $8, written
        lw   $10, 0($8)
        lw   $11, 4($8)         # taken
        subu $11, $10, $11      # how many are in the buffer
        sltiu $11, $11, room
        bne  $11, $0, fits
        nop
        li   $2, 0              # yield
        li   $4, -1
        syscall
        b    full
        nop
fits:   andi $11, $10, 63
        addu $11, $11, $8
        sb   $9, 0x40($11)      # first the byte, and then that it is there
        addiu $10, $10, 1
        sw   $10, 0($8)
        jr   $31
        nop

receive: la  $8, written
        lw   $10, 0($8)
        lw   $11, 4($8)
        bne  $10, $11, some
        nop
        li   $2, 0              # yield
        li   $4, -1
        syscall
        b    receive
        nop
some:   andi $10, $11, 63
        addu $10, $10, $8
        lbu  $2, 0x40($10)      # first the byte, and then that its place is free
        addiu $11, $11, 1
        sw   $11, 4($8)
        jr   $31
        nop

close:  la   $8, written
        lw   $10, 0($8)
        lw   $11, 4($8)
        beq  $10, $11, closed
        nop
        li   $2, 0              # yield
        li   $4, -1
        syscall
        b    close
        nop
closed: jr   $31
        nop
.data
letter: .byte 0
