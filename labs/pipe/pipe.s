# Exercise 2, a pipe. Environment 0 writes, environment 1 reads, and both run this program. The bytes go through a page that
# both see: environment 0 allocates it, and environment 1 binds it by a word. The byte 0 is the end.
.equ    length, 200             # how many bytes the writer makes. The checker has other numbers in these three lines
.equ    step, 7                 # and from each letter to the next so many letters of the alphabet
.equ    first, 3
.equ    page, 12                # the page, which both know
.equ    word, 0x5eed            # and the word that lets the reader store to it too: each keeps its own count there
.equ    place, 0x500            # the VPN at which both see it

# The page: how many bytes were written in all, how many were read in all, and then a buffer of 64 bytes.
.equ    written, 0x500000
.equ    taken, 0x500004
.equ    buffer, 0x500040
.equ    room, 64

start:  li   $2, 20             # self
        syscall
        bne  $3, $0, reader
        nop

writer: jal  lend
        nop
        li   $16, length
        li   $17, first
next:   addiu $4, $17, 97       # a letter
        jal  send
        nop
        addiu $17, $17, step
        li   $8, 26
        divu $17, $8
        mfhi $17
        addiu $16, $16, -1
        bne  $16, $0, next
        nop
        li   $4, 0              # the end
        jal  send
        nop
        jal  close
        nop
        b    leave
        nop

reader: jal  borrow
        nop
more:   jal  receive
        nop
        beq  $2, $0, leave
        nop
        la   $4, letter
        sb   $2, 0($4)
        li   $2, 1              # put
        li   $5, 1
        syscall
        b    more
        nop

leave:  li   $2, 2              # exit
        li   $4, 0
        syscall

# WRITE: these five. They keep $16, $17 and $31.
lend:   jr   $31                # the writer's: allocate the page, and bind it
        nop
borrow: jr   $31                # the reader's: bind the page, as soon as it is there
        nop
send:   jr   $31                # put the byte in $4 into the buffer; while it is full, yield
        nop
receive: li  $2, 0              # take a byte out of the buffer into $2; while it is empty, yield
        jr   $31
        nop
close:  jr   $31                # the writer's: wait until all is read
        nop
.data
letter: .byte 0
