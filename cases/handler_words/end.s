done:
.data
all:    .half 0, 1              # a byte, of any value
        .word 0, 0
