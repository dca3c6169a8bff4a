done:
.data
zeros:  .half 0, 1              # a byte 0
        .word 0xff, 0
all:    .half 0, 1              # a byte, of any value
        .word 0, 0
