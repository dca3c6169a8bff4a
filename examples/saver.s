# Keeps two pages beside a program that calls for all (greedy.s): it stores a word in each, waits for 100 slices, and looks.
# It lends them to nobody, since the words in $5 to $8 are 0. Yet in an image of version 2 another's calls have them taken.
# A page that is loaded as a backup isn't taken.
.equ    backups, 0              # 1: it loads both as backups
.equ    place, 0x00500000       # where the first page is seen, and the other after it

start:  la   $16, place
        li   $17, 2
page:   li   $2, 3              # alloc: any page
        li   $4, -1
        li   $6, 0
        syscall
        move $18, $3
        li   $2, 6              # bind: the page, at the next VPN
        srl  $4, $16, 12
        move $5, $18
        li   $6, 1              # to store to it too
        syscall
        sw   $17, 0($16)
        li   $8, backups
        beq  $8, $0, next
        ori  $2, $0, 18         # backup: the page; this runs before the branch is over
        move $4, $18
        syscall
next:   addiu $17, $17, -1
        bne  $17, $0, page
        addiu $16, $16, 4096    # runs before the branch is over

        li   $9, 100
wait:   li   $2, 0              # yield
        li   $4, -1
        syscall
        addiu $9, $9, -1
        bne  $9, $0, wait
        nop
        la   $16, place
        lw   $8, 0($16)         # the two words are 2 and 1
        lw   $10, 4096($16)
        nop
        subu $8, $8, $10
        addiu $4, $8, -1        # exit with 0 if they are there
        li   $2, 2
        syscall
