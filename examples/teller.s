# Tells a sentence to whoever asks how many pages are free: in each slice it holds as many pages as a letter's code says.
# It shares no page, word or mask with anybody.
start:  la   $16, sentence
        li   $17, 0             # how many pages it holds
letter: lbu  $18, 0($16)        # that many are to be held
        addiu $16, $16, 1
hold:   slt  $8, $17, $18
        bne  $8, $0, more
        slt  $8, $18, $17
        bne  $8, $0, fewer
        nop
        li   $2, 0              # yield, to whoever is next
        li   $4, -1
        syscall
        bne  $18, $0, letter    # at the end it holds none
        nop
        li   $2, 2              # exit
        li   $4, 0
        syscall

more:   li   $2, 3              # alloc: the lowest free page. Nobody else allocates, so it is the one after its last
        li   $4, -1
        syscall
        addu $19, $3, $0        # its last page
        b    hold
        addiu $17, $17, 1

fewer:  li   $2, 4              # free: its last page
        addu $4, $19, $0
        syscall
        addiu $19, $19, -1
        b    hold
        addiu $17, $17, -1

.data
sentence: .asciiz "meet me at page nine"
