# A kernel for the bare board, in eight steps (docs/BARE.md): two user programs take turns, and print.
# The board has the text from 0x80000100 on, and the assembler counts labels from 0x00400000: an address here is label+0x7fc00100.
.equ current, 0xf0              # at 0x800000f0: the frame of the program that runs
.equ other, 0x100               # the second frame is that far after the first
# In a frame $n is at 4n, and after the registers:
.equ hi_at, 0x80
.equ lo_at, 0x84
.equ epc, 0x88
.equ base, 0x8c                 # of its page table, for Context
.equ pid, 0x90                  # for EntryHi
.equ gone, 0x94                 # 1 where it has ended

# 1. The code of both vectors goes to its place.
start:  lui  $8, 0x8000
        la   $9, refill+0x7fc00100
        la   $10, vectors_end+0x7fc00100
copy:   lw   $11, 0($9)
        addiu $9, $9, 4
        sw   $11, 0($8)
        bne  $9, $10, copy
        addiu $8, $8, 4

# 2. The page tables, pages 16 and 17: VPN 1 is the code, to be read; VPN 2 a page of data (V is 0x200, D 0x400).
        lui  $8, 0x8001
        li   $9, 0x12200        # page 18
        sw   $9, 4($8)
        li   $9, 0x14600        # page 20
        sw   $9, 8($8)
        li   $9, 0x13200        # page 19
        sw   $9, 0x1004($8)
        li   $9, 0x15600        # page 21
        sw   $9, 0x1008($8)

# 3. Rows 0 and 1 map the tables for all (G is 0x100).
        lui  $8, 0xc000
        mtc0 $8, $10            # EntryHi
        li   $9, 0x10700        # page 16
        mtc0 $9, $2             # EntryLo
        mtc0 $0, $0             # Index
        tlbwi
        lui  $8, 0xc020
        mtc0 $8, $10
        li   $9, 0x11700        # page 17
        mtc0 $9, $2
        li   $8, 0x100
        mtc0 $8, $0
        tlbwi

# 4. One program, twice: into pages 18 and 19.
        la   $8, user+0x7fc00100
        la   $9, user_end+0x7fc00100
        la   $10, 0x80012000
load:   lw   $11, 0($8)
        addiu $8, $8, 4
        sw   $11, 0($10)
        sw   $11, 0x1000($10)
        bne  $8, $9, load
        addiu $10, $10, 4

# 5. The frames, in page 22. Each program has its letter in $4.
        la   $26, 0x80016000
        addiu $27, $26, other
        li   $8, 97
        sw   $8, 16($26)
        li   $8, 98
        sw   $8, 16($27)
        li   $8, 0x1000
        sw   $8, epc($26)
        sw   $8, epc($27)
        lui  $8, 0xc000
        sw   $8, base($26)
        lui  $8, 0xc020
        sw   $8, base($27)
        li   $8, 0x40
        sw   $8, pid($26)
        li   $8, 0x80
        sw   $8, pid($27)

# The program of the frame in $26 goes on, in user mode and with interrupts: the previous pair of Status, by RFE the current one.
resume: lui  $27, 0x8000
        sw   $26, current($27)
        lw   $8, base($26)
        lw   $9, pid($26)
        mtc0 $8, $4             # Context
        mtc0 $9, $10            # EntryHi
        li   $8, 0x800c
        mtc0 $8, $12            # Status
        lw   $8, hi_at($26)
        lw   $9, lo_at($26)
        mthi $8
        mtlo $9
        lw   $27, epc($26)
        lw   $1, 4($26)
        lw   $2, 8($26)
        lw   $3, 12($26)
        lw   $4, 16($26)
        lw   $5, 20($26)
        lw   $6, 24($26)
        lw   $7, 28($26)
        lw   $8, 32($26)
        lw   $9, 36($26)
        lw   $10, 40($26)
        lw   $11, 44($26)
        lw   $12, 48($26)
        lw   $13, 52($26)
        lw   $14, 56($26)
        lw   $15, 60($26)
        lw   $16, 64($26)
        lw   $17, 68($26)
        lw   $18, 72($26)
        lw   $19, 76($26)
        lw   $20, 80($26)
        lw   $21, 84($26)
        lw   $22, 88($26)
        lw   $23, 92($26)
        lw   $24, 96($26)
        lw   $25, 100($26)
        lw   $28, 112($26)
        lw   $29, 116($26)
        lw   $30, 120($26)
        lw   $31, 124($26)
        jr   $27
        rfe

# 6. The first vector: the row of a VPN that has none. Context has the address of its EntryLo.
refill: mfc0 $26, $4
        mfc0 $27, $14           # EPC
        lw   $26, 0($26)
        mtc0 $26, $2
        tlbwr
        jr   $27
        rfe
        .space 100              # up to the second vector, 0x80 further on
        la   $26, general+0x7fc00100
        jr   $26
        nop
vectors_end:

# 7. All other exceptions, and interrupts.
general: lui $26, 0x8000
        lw   $26, current($26)
        nop
        sw   $1, 4($26)
        sw   $2, 8($26)
        sw   $3, 12($26)
        sw   $4, 16($26)
        sw   $5, 20($26)
        sw   $6, 24($26)
        sw   $7, 28($26)
        sw   $8, 32($26)
        sw   $9, 36($26)
        sw   $10, 40($26)
        sw   $11, 44($26)
        sw   $12, 48($26)
        sw   $13, 52($26)
        sw   $14, 56($26)
        sw   $15, 60($26)
        sw   $16, 64($26)
        sw   $17, 68($26)
        sw   $18, 72($26)
        sw   $19, 76($26)
        sw   $20, 80($26)
        sw   $21, 84($26)
        sw   $22, 88($26)
        sw   $23, 92($26)
        sw   $24, 96($26)
        sw   $25, 100($26)
        sw   $28, 112($26)
        sw   $29, 116($26)
        sw   $30, 120($26)
        sw   $31, 124($26)
        mfhi $8
        mflo $9
        sw   $8, hi_at($26)
        sw   $9, lo_at($26)
        mfc0 $8, $14
        mfc0 $9, $13            # Cause
        sw   $8, epc($26)
        andi $9, $9, 0x7c
        beq  $9, $0, switch     # an interrupt
        addiu $9, $9, -32
        bne  $9, $0, end        # no system call: the program is ended
        addiu $8, $8, 4

# 8. System calls, by $2: 1 puts the byte in $4 on the console, and each other is the end.
        sw   $8, epc($26)
        addiu $9, $2, -1
        bne  $9, $0, end
        lui  $10, 0x8004        # the console begins a page below
        lw   $11, -4096($10)
        addu $12, $10, $11
        sb   $4, -4092($12)
        addiu $11, $11, 1
        b    resume
        sw   $11, -4096($10)

end:    li   $8, 1
        sw   $8, gone($26)
switch: addiu $27, $0, other
        xor  $27, $26, $27
        lw   $8, gone($27)
        nop
        beq  $8, $0, resume     # the other goes on, if it lives,
        move $26, $27
        xori $26, $26, other
        lw   $8, gone($26)
        nop
        beq  $8, $0, resume     # else this one
        nop
        break                   # both are gone

# The user program, at 0x1000: its letter three times, and each time the rest of a count in its page of data.
user:   ori  $16, $0, 3
again:  sw   $16, 0x2000($0)
        ori  $2, $0, 1
        syscall
        ori  $8, $0, 300
wait:   addiu $8, $8, -1
        bne  $8, $0, wait
        nop
        lw   $16, 0x2000($0)
        addiu $16, $16, -1
        bne  $16, $0, again
        nop
        ori  $2, $0, 2
        syscall
user_end:
