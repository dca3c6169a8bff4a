# Exercise 7, a reliable transfer. Machine 0 sends letters to machine 1 over a wire, in blocks of eight; both run this program, the sender
# as environment 0 and the receiver as environment 1. A block with a 0 in it is the last one.
.equ    length, 200             # how many letters the sender makes. The checker has other numbers in these four lines
.equ    step, 7                 # and from each letter to the next so many letters of the alphabet
.equ    first, 3
.equ    patience, 2000          # after so many ticks without an answer a block is sent again

.equ    size, 8                 # the letters of a block
.equ    data, 0x64              # what a frame is: d, a block
.equ    answer, 0x61            # or a, the answer that it came
.equ    ring, 0x500000          # where the ring is seen
.equ    buffers, 0x800          # the bits in which the addresses of its two buffers differ

start:  li   $2, 20             # self
        syscall
        la   $8, frame
        move $16, $3
        sb   $16, 11($8)        # from this machine
        xori $9, $16, 1
        sb   $9, 5($8)          # to the other
        jal  open
        nop
        bne  $16, $0, receiver
        nop

        li   $16, length        # the sender: letters that are left
        li   $17, first
block:  la   $8, letters
        li   $9, size
make:   move $10, $0
        beq  $16, $0, put       # none is left: 0
        nop
        addiu $10, $17, 97
        addiu $17, $17, step
        li   $11, 26
        divu $17, $11
        mfhi $17
        addiu $16, $16, -1
put:    sb   $10, 0($8)
        addiu $8, $8, 1
        addiu $9, $9, -1
        bne  $9, $0, make
        nop
        move $18, $10           # 0 in the last block
        jal  send
        nop
        bne  $18, $0, block
        nop
        b    leave
        nop

receiver: jal receive
        nop
        la   $4, letters
        li   $5, 0
count:  addu $8, $4, $5         # the letters before the first 0
        lbu  $8, 0($8)
        beq  $8, $0, print
        nop
        addiu $5, $5, 1
        sltiu $8, $5, size
        bne  $8, $0, count
        nop
print:  move $16, $5
        li   $2, 1              # put
        syscall
        sltiu $8, $16, size
        beq  $8, $0, receiver
        nop
        jal  close
        nop
leave:  li   $2, 2              # exit
        li   $4, 0
        syscall

# WRITE: these four. They keep $16, $17, $18 and $31.
open:   jr   $31                # both: allocate a page, bind it at `ring`, and claim the packets of `filter` into it
        nop
send:   jr   $31                # the sender's: the other machine gets the block at `letters`, and has answered
        nop
receive: jr  $31                # the receiver's: the next block is at `letters`, and was answered
        nop
close:  jr   $31                # the receiver's: wait until the sender surely needs no answer any more
        nop
.data
# A frame: the receiver's and the sender's address, the kind, what it is, the block's number (0, 1, .. 255, 0, ..), and its letters.
.equ    bytes, 24               # of a frame
frame:  .byte 2, 0, 0, 0, 0, 0
        .byte 2, 0, 0, 0, 0, 0
        .byte 0x88, 0xb7
        .byte data, 0
letters: .space 8
# Frames of this kind, none of which is shorter. Atoms: offset and width of a field, mask, value.
filter: .half 12, 2
        .word 0xffff, 0x88b7
        .half 20, 4
        .word 0, 0
