# ExOS, a pipe. One environment writes bytes, and another reads them, through a page that both see.
#
# Who decides what
#
#   The kernel says who may see the page. Its owner gave it a word, and whoever presents the word may bind it. That is checked
#   once, at the bind. From then on loads and stores go to the page, and the kernel has no part in them: 10,000 bytes go over
#   without a call for any of them.
#
#   The two programs decide the rest: that the page is a ring of bytes, where its words are, what a full ring is and an empty
#   one, and what to do then. The kernel has no pipes. A pipe of messages, or one with two readers, is another library and the
#   same kernel.
#
# How the kernel protects
#
#   The words of a page are its capabilities: a word of 64 bits gives a right to whoever knows it, and no call tells it. The
#   word here is short, so that it is easily read. One that nobody shall guess is drawn from all 64 bits.
#
#   The page is the writer's. If the writer dies, the page is free, and the reader's binding is broken. So the writer waits,
#   before it ends, until the ring is empty. What the two store into the page they have to agree on: each can spoil the ring,
#   and harms with it nobody but the other.
#
# The ring
#
#   0x000  head: how many bytes were written in all. The writer alone stores it
#   0x004  tail: how many bytes were read in all. The reader alone stores it
#   0x800  2,048 bytes; byte i is at place i modulo 2,048
#
#   It is empty if head = tail, and full if head - tail = 2,048. Each of the two words has one writer, so there is no lock. A
#   slice may end between any two instructions, so order counts: the writer stores the byte before the head, and the reader
#   loads it before it stores the tail.
#
# The run
#
#   Environment 0 sends 10,000 bytes, byte i being i modulo 251. Environment 1 adds them up, and prints how many there were,
#   and the sum. Who can't go on yields: the writer if the ring is full, the reader if it is empty.

# Calls of the kernel: the number is in $2, arguments are in $4 to $8; the answer's code is in $2, its value in $3
.equ call_yield,        0       # $4 an environment, or anybody
.equ call_put,          1       # $4 address, $5 length
.equ call_exit,         2       # $4 code
.equ call_alloc,        3       # $4 a page or any; $5, $6 the word to read it and $7, $8 the word to write it
.equ call_bind,         6       # $4 VPN, $5 a page, $6 not 0 to store to it too; $7, $8 the word
.equ call_self,         20
.equ anybody,           -1

# What both programs know
.equ page,              200
.equ word,              0x22    # the page's write word
.equ total,             10000   # bytes that go over
.equ modulus,           251     # byte i is i modulo this

# The ring, and where each of them sees it
.equ vpn,               0x500
.equ memory,            0x500000
.equ head,              0x000
.equ tail,              0x004
.equ ring,              0x800
.equ ring_size,         0x800
.equ ring_mask,         0x7ff

start:  li   $2, call_self
        syscall
        bne  $3, $0, reader
        nop

# --- Environment 0 writes -----------------------------------------------------------------------------------------------
# $16 the page, $17 the head, $18 the next byte, $19 the bytes in all

writer: li   $2, call_alloc
        li   $4, page
        li   $5, 0              # no read word
        li   $6, 0
        li   $7, word
        li   $8, 0
        syscall
        bne  $2, $0, failed
        nop
        li   $2, call_bind
        li   $4, vpn
        li   $5, page
        li   $6, 1              # to store to it too
        syscall
        bne  $2, $0, failed
        nop
        li   $16, memory
        li   $17, 0
        li   $18, 0
        li   $19, total

send:   lw   $8, tail($16)
        subu $8, $17, $8        # bytes in the ring
        sltiu $8, $8, ring_size
        beq  $8, $0, full
        andi $9, $17, ring_mask
        addu $9, $9, $16
        sb   $18, ring($9)
        addiu $17, $17, 1
        sw   $17, head($16)     # the byte is there: the reader may have it
        addiu $18, $18, 1
        sltiu $8, $18, modulus
        bne  $8, $0, more
        nop
        li   $18, 0
more:   bne  $17, $19, send
        nop

drain:  lw   $8, tail($16)      # the page is gone with this environment, so it waits for the reader
        beq  $8, $17, leave
        nop
        li   $2, call_yield
        li   $4, anybody
        syscall
        b    drain
        nop

full:   li   $2, call_yield
        li   $4, anybody
        syscall
        b    send
        nop

# --- Environment 1 reads ------------------------------------------------------------------------------------------------
# $16 the page, $17 the tail, $18 the sum, $19 the bytes in all

reader: li   $2, call_bind
        li   $4, vpn
        li   $5, page
        li   $6, 1
        li   $7, word           # it isn't the owner: the word is its right
        li   $8, 0
        syscall
        beq  $2, $0, bound
        nop
        li   $2, call_yield     # the page isn't allocated yet
        li   $4, anybody
        syscall
        b    reader
        nop

bound:  li   $16, memory
        li   $17, 0
        li   $18, 0
        li   $19, total

take:   lw   $8, head($16)
        andi $9, $17, ring_mask
        beq  $8, $17, empty
        addu $9, $9, $16
        lbu  $8, ring($9)
        addiu $17, $17, 1
        addu $18, $18, $8
        bne  $17, $19, take
        sw   $17, tail($16)     # runs before the branch is over. The place is free again

# The writer may be gone from here on, and the page with it: everything is in registers
        li   $2, call_put
        la   $4, name
        li   $5, name_length
        syscall
        move $4, $17
        jal  print
        ori  $5, $0, space
        move $4, $18
        jal  print
        ori  $5, $0, line_feed

leave:  li   $2, call_exit
        li   $4, 0
        syscall

empty:  li   $2, call_yield
        li   $4, anybody
        syscall
        b    take
        nop

failed: li   $2, call_exit
        li   $4, 1
        syscall

# --- The console --------------------------------------------------------------------------------------------------------
# Puts the number $4 in decimal, and behind it the character $5. The digits are made from the last one on.

print:  la   $6, behind
        sb   $5, 0($6)
        li   $8, 10
digit:  divu $4, $8
        mflo $4                 # what is left
        mfhi $9                 # the last digit
        addiu $9, $9, zero
        addiu $6, $6, -1
        bne  $4, $0, digit
        sb   $9, 0($6)
        li   $2, call_put
        move $4, $6             # from the first digit on
        la   $5, behind+1
        subu $5, $5, $6
        syscall
        jr   $31
        nop

.equ line_feed,         0x0a
.equ space,             0x20
.equ zero,              0x30    # the digit 0
.equ name_length,       5
.data
name:   .ascii "pipe "
digits: .space 10
behind: .byte 0
