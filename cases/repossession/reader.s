# Binds the pages 4 and 5 of the other, 5 to store to it too. It puts what it finds in 4, and in 5 before and after 4 was taken; stores
# into 5; and reads 4 again.
        ori  $4, $0, 0x500      # 28
        ori  $5, $0, 4
        ori  $7, $0, 5
        ori  $2, $0, 6          # 31    bind
        syscall                 # 32    4
        ori  $4, $0, 0x501
        ori  $5, $0, 5
        ori  $6, $0, 1
        ori  $7, $0, 9
        ori  $2, $0, 6
        syscall                 # 38    5
        lui  $9, 0x50
        lui  $11, 0x50          # 40
        ori  $11, $11, 0x1000
        lbu  $16, 0($9)         # 42    page 4
        lbu  $17, 0($11)        # 43    page 5
        lbu  $18, 0($11)        # 44    page 4 was taken in this tick
        ori  $19, $0, 0x55
        sb   $19, 0($11)        # 46
        lbu  $19, 0($11)
        sb   $16, 0x1800($0)    # 48
        sb   $17, 0x1801($0)
        sb   $18, 0x1802($0)
        sb   $19, 0x1803($0)
        ori  $2, $0, 1          # put
        ori  $4, $0, 0x1800
        ori  $5, $0, 4
        syscall                 # 55
        lbu  $19, 0($9)         # 56    page 4
