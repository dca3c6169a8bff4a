# says: 1 missing: Of the first 3 slices environment 1 has 3, and its share of 20 in 100 is 0.6: the others wait too long.
# Gives environment 1 all of its slices in a row, and then 2, and then 3. Who is dead is passed over.
.equ    share1, 3
.equ    share2, 2
.equ    share3, 1

start:  la   $16, shares
        li   $17, 1
who:    lw   $18, 0($16)
give:   li   $2, 0
        move $4, $17
        syscall
        bne  $2, $0, dead
        addiu $18, $18, -1
        bne  $18, $0, give
        nop
dead:   addiu $16, $16, 4
        addiu $17, $17, 1
        slti $8, $17, 4
        bne  $8, $0, who
        nop
        b    start
        nop
.data
shares: .word share1, share2, share3
