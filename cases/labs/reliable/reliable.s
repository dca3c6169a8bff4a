# A solution of exercise 7. Machine 0 sends letters to machine 1 over a wire, in blocks of eight; both run this program, the sender
# as environment 0 and the receiver as environment 1. A block with a 0 in it is the last one.
.equ    length, 200             # how many letters the sender makes. The checker has other numbers in these four lines
.equ    step, 7                 # and from each letter to the next so many letters of the alphabet
.equ    first, 3
.equ    patience, 2000          # after so many ticks without an answer a block is sent again

.equ    size, 8                 # the letters of a block
.equ    data, 0x64              # what a frame is: d, a block
.equ    answer, 0x61            # or a, the answer that it came
.equ    ring, 0x500000          # where the ring is seen
.equ    buffers, 0x800          # the bits in which the addresses of its two buffers differ

start:  li   $2, 20             # self
        syscall
        la   $8, frame
        move $16, $3
        sb   $16, 11($8)        # from this machine
        xori $9, $16, 1
        sb   $9, 5($8)          # to the other
        jal  open
        nop
        bne  $16, $0, receiver
        nop

        li   $16, length        # the sender: letters that are left
        li   $17, first
block:  la   $8, letters
        li   $9, size
make:   move $10, $0
        beq  $16, $0, put       # none is left: 0
        nop
        addiu $10, $17, 97
        addiu $17, $17, step
        li   $11, 26
        divu $17, $11
        mfhi $17
        addiu $16, $16, -1
put:    sb   $10, 0($8)
        addiu $8, $8, 1
        addiu $9, $9, -1
        bne  $9, $0, make
        nop
        move $18, $10           # 0 in the last block
        jal  send
        nop
        bne  $18, $0, block
        nop
        b    leave
        nop

receiver: jal receive
        nop
        la   $4, letters
        li   $5, 0
count:  addu $8, $4, $5         # the letters before the first 0
        lbu  $8, 0($8)
        beq  $8, $0, print
        nop
        addiu $5, $5, 1
        sltiu $8, $5, size
        bne  $8, $0, count
        nop
print:  move $16, $5
        li   $2, 1              # put
        syscall
        sltiu $8, $16, size
        beq  $8, $0, receiver
        nop
        jal  close
        nop
leave:  li   $2, 2              # exit
        li   $4, 0
        syscall

# Both sides. `next` has the buffer of the next packet, and `due` the number of the receiver's next block.
open:   li   $2, 3              # alloc: the lowest free page, which nobody else may bind
        li   $4, -1
        li   $5, 0
        li   $6, 0
        li   $7, 0
        li   $8, 0
        syscall
        move $9, $3
        li   $2, 6              # bind, to store to it too
        li   $4, 0x500
        move $5, $9
        li   $6, 1
        syscall
        li   $2, 14             # claim
        la   $4, filter
        li   $5, 2
        move $6, $9
        syscall
        jr   $31
        nop

send:   move $20, $31
again:  jal  out                # the block goes out
        nop
        li   $2, 21             # clock
        syscall
        addiu $19, $3, patience
wait:   jal  in
        move $4, $19
        beq  $2, $0, again      # too late: once more
        ori  $8, $0, answer
        bne  $2, $8, wait
        nop
        la   $9, frame
        lbu  $10, 15($9)
        bne  $3, $10, wait      # it is the answer to an earlier one
        nop
        addiu $10, $10, 1
        sb   $10, 15($9)
        jr   $20
        nop

receive: move $20, $31
none:   jal  in                 # however long it takes
        addiu $4, $0, -1
        ori  $8, $0, data
        bne  $2, $8, none
        nop
        jal  reply              # it is answered, also if it came before
        nop
        la   $9, due
        lbu  $10, 0($9)
        bne  $3, $10, none      # it is given once
        nop
        addiu $10, $10, 1
        sb   $10, 0($9)
        la   $9, arrived
        lw   $10, 0($9)
        lw   $11, 4($9)
        la   $9, letters
        sw   $10, 0($9)
        sw   $11, 4($9)
        jr   $20
        nop

close:  move $20, $31
longer: li   $2, 21             # clock
        syscall
        li   $8, patience
        sll  $8, $8, 2
        addu $19, $3, $8        # four times that nothing came for so long
more:   jal  in
        move $4, $19
        beq  $2, $0, closed
        ori  $8, $0, data
        bne  $2, $8, more
        nop
        jal  reply              # the sender hasn't had the answer
        nop
        b    longer
        nop
closed: jr   $20
        nop

# Waits for a frame until the clock is $4: $2 is what it is and $3 its number, and `arrived` has its letters. $2 is 0 if none came.
in:     la   $12, next
        lw   $13, 0($12)
        move $14, $4
poll:   lw   $2, 0($13)         # the packet's length, or 0
        bne  $2, $0, came
        nop
        li   $2, 0              # yield, to whoever is next
        li   $4, -1
        syscall
        li   $2, 21
        syscall
        sltu $2, $3, $14
        bne  $2, $0, poll
        nop
        jr   $31                # $2 is 0
        nop
came:   lbu  $2, 18($13)        # after the length
        lbu  $3, 19($13)
        lw   $10, 20($13)
        lw   $11, 24($13)
        sw   $0, 0($13)         # the buffer is empty again
        xori $13, $13, buffers  # the next packet is in the other
        sw   $13, 0($12)
        la   $12, arrived
        sw   $10, 0($12)
        sw   $11, 4($12)
        jr   $31
        nop

# Answers the block of number $3, which stays there.
reply:  la   $9, frame
        ori  $8, $0, answer
        sb   $8, 14($9)
        sb   $3, 15($9)
        move $15, $3
        li   $2, 19             # send
        move $4, $9
        li   $5, bytes
        syscall
        jr   $31
        move $3, $15

# Sends the frame.
out:    li   $2, 19
        la   $4, frame
        li   $5, bytes
        syscall
        jr   $31
        nop
.data
# A frame: the receiver's and the sender's address, the kind, what it is, the block's number (0, 1, .. 255, 0, ..), and its letters.
.equ    bytes, 24               # of a frame
frame:  .byte 2, 0, 0, 0, 0, 0
        .byte 2, 0, 0, 0, 0, 0
        .byte 0x88, 0xb7
        .byte data, 0
letters: .space 8
# Frames of this kind, none of which is shorter. Atoms: offset and width of a field, mask, value.
filter: .half 12, 2
        .word 0xffff, 0x88b7
        .half 20, 4
        .word 0, 0
.align 2
arrived: .space 8
next:   .word ring
due:    .byte 0
