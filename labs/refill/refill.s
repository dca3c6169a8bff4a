# Exercise 8, a refill handler. This kernel for the bare board runs two programs by turns, each with more pages than the TLB
# has rows for them. All is here but the handler at the first vector. An address of the kernel is label+0x7fc00100, as in
# docs/BARE.md.
.equ    tables, 0x80003000      # where the page tables begin. The checker has other numbers in these six lines
.equ    code, 0x00010000        # where a program stands
.equ    region, 0x003e0000      # where its pages begin,
.equ    pages, 60               # and how many they are
.equ    loaded, 0x003e0000      # an address from which it loads at its end,
.equ    stored, 0x003e0000      # and one to which it stores

.equ    current, 0xf0           # at 0x800000f0: the frame of the program that runs,
.equ    directory, 0xf4         # and at 0x800000f4 its directory
.equ    other, 0x100            # the second frame stands so far after the first
# In a frame $n stands at 4n, and after the registers:
.equ    hi_at, 0x80
.equ    lo_at, 0x84
.equ    epc, 0x88
.equ    pid, 0x8c               # for EntryHi
.equ    tree, 0x90              # its directory
.equ    letter, 0x94
.equ    gone, 0x98              # 1 where it has ended

# The code of both vectors goes to its place, and the program's to page 2.
start:  lui  $4, 0x8000
        la   $5, refill+0x7fc00100
        la   $6, refill_end+0x7fc00100
        subu $8, $6, $5
        sltiu $8, $8, 129
        bne  $8, $0, fits
        nop
        break                   # the handler has more than 32 words, and there is no room for it
fits:   bgezal $0, copy
        nop
        la   $4, 0x80000080
        la   $5, second+0x7fc00100
        la   $6, second_end+0x7fc00100
        bgezal $0, copy
        nop
        la   $4, 0x80002000
        la   $5, user+0x7fc00100
        la   $6, user_end+0x7fc00100
        bgezal $0, copy
        nop

# Rows 0 to 7 map the kernel's pages, 56 to 63, from 0xc0000000 on: the first has the frames, the last is the console.
        lui  $8, 0xc000
        li   $9, 0x38700        # page 56, D, V, G
        li   $10, 0
row:    mtc0 $8, $10            # EntryHi
        mtc0 $9, $2             # EntryLo
        mtc0 $10, $0            # Index
        tlbwi
        addiu $8, $8, 0x1000
        addiu $9, $9, 0x1000
        addiu $10, $10, 0x100
        sltiu $11, $10, 0x800
        bne  $11, $0, row
        nop

# Both programs: a frame, a directory, its tables, and the pages of data, 24 to 39 of program a and 40 to 55 of program b.
        la   $20, tables        # the next page that becomes a table
        lui  $16, 0xc000        # the frame
        li   $17, 97            # the letter
        li   $18, 0x40          # PID 1
        li   $19, 24            # the first of the pages of data
build:  move $21, $20           # the directory
        addiu $20, $20, 0x1000
        sw   $17, letter($16)
        sw   $18, pid($16)
        sw   $21, tree($16)
        li   $8, code
        sw   $8, epc($16)
        move $8, $17            # registers: each has another number
        li   $9, 0x01030507
        addiu $10, $16, 4
        addiu $11, $16, 128
give:   addu $8, $8, $9
        sw   $8, 0($10)
        addiu $10, $10, 4
        bne  $10, $11, give
        nop
        li   $4, code           # its code, to be read alone
        bgezal $0, map
        ori  $5, $0, 0x2200     # page 2, V
        li   $22, region
        li   $23, 0
data:   sll  $8, $23, 2         # page N of the region is the program's page of data 5 N modulo 16
        addu $8, $8, $23
        andi $8, $8, 15
        addu $8, $8, $19
        sll  $8, $8, 12
        lui  $9, 0x8000
        addu $9, $9, $8
        srl  $10, $8, 12
        sw   $10, 0xffc($9)     # which has its number in its last word
        move $4, $22
        bgezal $0, map
        ori  $5, $8, 0x600      # D, V
        addiu $22, $22, 0x1000
        addiu $23, $23, 1
        sltiu $8, $23, pages
        bne  $8, $0, data
        nop
        addiu $16, $16, other
        addiu $17, $17, 1
        addiu $18, $18, 0x40
        sltiu $8, $17, 99
        bne  $8, $0, build
        addiu $19, $19, 16
        b    resume
        lui  $26, 0xc000

# The address in $4 gets the EntryLo in $5, under the directory in $21. Word N of a directory is the address of the table for
# the addresses from N * 0x400000 on, or 0. Word N of a table is the EntryLo of the Nth page of these, or 0.
map:    srl  $9, $4, 22
        sll  $9, $9, 2
        addu $9, $9, $21
        lw   $10, 0($9)
        bne  $10, $0, found
        nop
        move $10, $20           # the next page becomes the table
        addiu $20, $20, 0x1000
        sw   $10, 0($9)
found:  srl  $9, $4, 10
        andi $9, $9, 0xffc
        addu $9, $9, $10
        jr   $31
        sw   $5, 0($9)

# The words from $5 up to $6 go to $4.
copy:   beq  $5, $6, copied
        lw   $8, 0($5)
        addiu $5, $5, 4
        sw   $8, 0($4)
        b    copy
        addiu $4, $4, 4
copied: jr   $31
        nop

# The program of the frame in $26 goes on, in user mode and with interrupts.
resume: lui  $27, 0x8000
        sw   $26, current($27)
        lw   $8, tree($26)
        lw   $9, pid($26)
        sw   $8, directory($27)
        mtc0 $9, $10            # EntryHi
        li   $8, 0x800c
        mtc0 $8, $12            # Status
        lw   $8, hi_at($26)
        lw   $9, lo_at($26)
        mthi $8
        mtlo $9
        lw   $27, epc($26)
        lw   $1, 4($26)
        lw   $2, 8($26)
        lw   $3, 12($26)
        lw   $4, 16($26)
        lw   $5, 20($26)
        lw   $6, 24($26)
        lw   $7, 28($26)
        lw   $8, 32($26)
        lw   $9, 36($26)
        lw   $10, 40($26)
        lw   $11, 44($26)
        lw   $12, 48($26)
        lw   $13, 52($26)
        lw   $14, 56($26)
        lw   $15, 60($26)
        lw   $16, 64($26)
        lw   $17, 68($26)
        lw   $18, 72($26)
        lw   $19, 76($26)
        lw   $20, 80($26)
        lw   $21, 84($26)
        lw   $22, 88($26)
        lw   $23, 92($26)
        lw   $24, 96($26)
        lw   $25, 100($26)
        lw   $28, 112($26)
        lw   $29, 116($26)
        lw   $30, 120($26)
        lw   $31, 124($26)
        jr   $27
        rfe

# The first vector: a program has no row for an address. What is from `refill` on is copied to 0x80000000.
refill: # WRITE: the handler, of at most 32 words
refill_end:

# The second vector, for all other exceptions and for interrupts.
second: la   $26, general+0x7fc00100
        jr   $26
        nop
second_end:

general: mfc0 $26, $12          # Status
        andi $26, $26, 8
        bne  $26, $0, save      # a program had the exception
        lui  $26, 0x8000
        break                   # the kernel had it, or the handler, at the address in EPC
save:   lw   $26, current($26)
        sw   $1, 4($26)
        sw   $2, 8($26)
        sw   $3, 12($26)
        sw   $4, 16($26)
        sw   $5, 20($26)
        sw   $6, 24($26)
        sw   $7, 28($26)
        sw   $8, 32($26)
        sw   $9, 36($26)
        sw   $10, 40($26)
        sw   $11, 44($26)
        sw   $12, 48($26)
        sw   $13, 52($26)
        sw   $14, 56($26)
        sw   $15, 60($26)
        sw   $16, 64($26)
        sw   $17, 68($26)
        sw   $18, 72($26)
        sw   $19, 76($26)
        sw   $20, 80($26)
        sw   $21, 84($26)
        sw   $22, 88($26)
        sw   $23, 92($26)
        sw   $24, 96($26)
        sw   $25, 100($26)
        sw   $28, 112($26)
        sw   $29, 116($26)
        sw   $30, 120($26)
        sw   $31, 124($26)
        mfhi $8
        mflo $9
        sw   $8, hi_at($26)
        sw   $9, lo_at($26)
        mfc0 $8, $14            # EPC
        mfc0 $16, $13           # Cause
        sw   $8, epc($26)
        andi $16, $16, 0x7c
        beq  $16, $0, switch    # an interrupt
        srl  $16, $16, 2
        addiu $9, $16, -8
        bne  $9, $0, fault      # no system call
        addiu $8, $8, 4

# System calls, by $2: 1 prints the number in $4, and each other is the end.
        sw   $8, epc($26)
        addiu $9, $2, -1
        bne  $9, $0, end
        move $17, $4
        bgezal $0, tell
        move $16, $0            # no code
        b    resume
        nop

# Every other exception is told, with its code and the bad address, and ends the program.
fault:  mfc0 $17, $8            # BadVAddr
        bgezal $0, tell
        nop
end:    li   $8, 1
        sw   $8, gone($26)
switch: addiu $27, $0, other
        xor  $27, $26, $27
        lw   $8, gone($27)
        beq  $8, $0, resume     # the other goes on, if it lives,
        move $26, $27
        xori $26, $26, other
        lw   $8, gone($26)
        beq  $8, $0, resume     # else this one
        nop
        break                   # both have ended

# A line on the console: the program's letter, the digit in $16 if it isn't 0, and the number in $17.
tell:   move $18, $31
        bgezal $0, put
        lw   $4, letter($26)
        beq  $16, $0, number
        sll  $5, $16, 28
        bgezal $0, digits
        addiu $6, $0, 1
number: move $5, $17
        bgezal $0, digits
        addiu $6, $0, 8
        bgezal $0, put
        addiu $4, $0, 10
        jr   $18
        nop

# A space, and the first digits of $5, as many as $6 says.
digits: move $19, $31
        bgezal $0, put
        addiu $4, $0, 32
digit:  srl  $4, $5, 28
        sltiu $8, $4, 10
        bne  $8, $0, low
        addiu $4, $4, 48
        addiu $4, $4, 39
low:    bgezal $0, put
        sll  $5, $5, 4
        addiu $6, $6, -1
        bne  $6, $0, digit
        nop
        jr   $19
        nop

# The byte in $4 goes on the console, which row 7 maps.
put:    la   $8, 0xc0007000
        lw   $9, 0($8)
        addu $10, $8, $9
        sb   $4, 4($10)
        addiu $9, $9, 1
        jr   $31
        sw   $9, 0($8)

# The program, which stands at `code`. It stores a word to each page of its region. Twice it loads these words and the last
# word of each page, and prints a sum of them and of its registers. Then it loads a word, prints it, and stores it.
user:   li   $7, region
        ori  $3, $0, pages
fill:   addu $8, $12, $3        # $12 is another number in each program
        sw   $8, 0($7)
        addiu $3, $3, -1
        bne  $3, $0, fill
        addiu $7, $7, 0x1004
        ori  $24, $0, 2         # passes
        ori  $9, $0, 31
pass:   li   $7, region
        la   $6, region+0xffc
        ori  $3, $0, pages
each:   multu $2, $9            # HI and LO are in use while a page is reached
        b    last
        lw   $8, 0($7)          # a load in a delay slot
last:   lw   $10, 0($6)
        mflo $2
        mfhi $11
        addu $2, $2, $8
        addu $2, $2, $10
        addu $2, $2, $11
        addiu $7, $7, 0x1004
        addiu $3, $3, -1
        bne  $3, $0, each
        addiu $6, $6, 0x1000
        addu $2, $2, $1
        addu $2, $2, $5
        addu $2, $2, $12
        addu $2, $2, $13
        addu $2, $2, $14
        addu $2, $2, $15
        addu $2, $2, $16
        addu $2, $2, $17
        addu $2, $2, $18
        addu $2, $2, $19
        addu $2, $2, $20
        addu $2, $2, $21
        addu $2, $2, $22
        addu $2, $2, $23
        addu $2, $2, $25
        addu $2, $2, $28
        addu $2, $2, $29
        addu $2, $2, $30
        addu $2, $2, $31
        move $4, $2
        ori  $2, $0, 1
        syscall
        move $2, $4
        addiu $24, $24, -1
        bne  $24, $0, pass
        nop
        la   $7, loaded
        lw   $4, 0($7)
        ori  $2, $0, 1
        syscall
        la   $7, stored
        sw   $4, 0($7)
        ori  $2, $0, 2
        syscall
user_end:
