start:  la   $8, word
        li   $9, -2
        sh   $9, 2($8)
        sw   $9, -8($29)
        swl  $9, 5($8)
        sw   $9, 0($0)          # no page is there
.data
word:   .word 1
        .word 0x44332211
