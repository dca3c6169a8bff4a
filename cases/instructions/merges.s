# The four merges at each place of a word: $8 to $11 are 0xaabbccdd after LWL of the word 0x44332211 at 0 to 3, and $12
# to $15 after LWR. $16 to $19 are the word after SWL of 0xaabbccdd, and $20 to $23 after SWR.
start:  lui  $2, 0x40
        lui  $3, 0xaabb
        ori  $3, $3, 0xccdd
        addu $8, $3, $0
        lwl  $8, lo(word)($2)
        addu $9, $3, $0
        lwl  $9, lo(word+1)($2)
        addu $10, $3, $0
        lwl  $10, lo(word+2)($2)
        addu $11, $3, $0
        lwl  $11, lo(word+3)($2)
        addu $12, $3, $0
        lwr  $12, lo(word)($2)
        addu $13, $3, $0
        lwr  $13, lo(word+1)($2)
        addu $14, $3, $0
        lwr  $14, lo(word+2)($2)
        addu $15, $3, $0
        lwr  $15, lo(word+3)($2)
        swl  $3, lo(left)($2)
        swl  $3, lo(left+5)($2)
        swl  $3, lo(left+10)($2)
        swl  $3, lo(left+15)($2)
        lw   $16, lo(left)($2)
        lw   $17, lo(left+4)($2)
        lw   $18, lo(left+8)($2)
        lw   $19, lo(left+12)($2)
        swr  $3, lo(right)($2)
        swr  $3, lo(right+5)($2)
        swr  $3, lo(right+10)($2)
        swr  $3, lo(right+15)($2)
        lw   $20, lo(right)($2)
        lw   $21, lo(right+4)($2)
        lw   $22, lo(right+8)($2)
        lw   $23, lo(right+12)($2)
word:   .word 0x44332211
left:   .word 0x44332211, 0x44332211, 0x44332211, 0x44332211
right:  .word 0x44332211, 0x44332211, 0x44332211, 0x44332211
