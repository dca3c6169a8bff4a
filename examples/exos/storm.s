# ExOS, a storm. A page is bound at 256 addresses, as many as a stripe has rows in version 1, and loaded through each of them,
# twice. The machine's TLB has fewer rows, so most loads are refilled. The program exits with the number of loads that answered
# another word than the page's.
#
# Who decides what
#
#   The program decides at which addresses it sees its page. The rows of the TLB are the kernel's: at a miss it writes the one
#   that is due by the binding. So a program may be slow by many addresses, and never sees by them what it may not see.
.equ call_exit,         2
.equ call_alloc,        3
.equ call_bind,         6
.equ first,             0x500   # a VPN
.equ behind,            0x600
.equ place,             0x500000
.equ place_behind,      0x600000
.equ page_size,         0x1000
.equ word,              0x57a9

start:  li   $2, call_alloc
        li   $4, -1             # the lowest free page
        syscall
        bne  $2, $0, failed
        move $5, $3
        li   $4, first
        li   $6, 1              # to store to it too
bind:   li   $2, call_bind
        syscall
        bne  $2, $0, failed
        addiu $4, $4, 1
        sltiu $8, $4, behind
        bne  $8, $0, bind
        nop
        li   $8, place
        li   $9, word
        sw   $9, 0($8)
        li   $16, 0             # loads that answered another word
        li   $17, 2             # rounds
round:  li   $8, place
        li   $10, place_behind
        li   $12, page_size
load:   lw   $11, 0($8)
        addu $8, $8, $12
        beq  $11, $9, same
        nop
        addiu $16, $16, 1
same:   bne  $8, $10, load
        nop
        addiu $17, $17, -1
        bne  $17, $0, round
        move $4, $16
        li   $2, call_exit
        syscall
failed: li   $4, -1
        li   $2, call_exit
        syscall
