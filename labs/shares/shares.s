# Exercise 4, a scheduler. This program, environment 0, has the only slot, and gives each of its slices to environment 1, 2 or 3
# by a yield. In the long run and in the short each is to get what its share says, so of (share1 + share2 + share3) slices in a
# row environment 1 gets about share1.
.equ    share1, 3               # 1 to 100. The checker has other numbers in these three lines
.equ    share2, 2
.equ    share3, 1

start:  # WRITE: decide whose this slice is, and yield to it (call 0, the number in $4). As it stands it is nobody's.
        li   $2, 0
        li   $4, -1
        syscall
        b    start
        nop
.data
shares: .word share1, share2, share3
