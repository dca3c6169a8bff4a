# Quotients and products, LO and then HI of each into two registers from $9 on.
start:  ori  $8, $0, 5
        div  $8, $0             # by 0
        mflo $9
        mfhi $10
        lui  $8, 0x8000
        addiu $2, $0, -1
        div  $8, $2             # -2^31 by -1
        mflo $11
        mfhi $12
        addiu $8, $0, -7
        ori  $2, $0, 2
        div  $8, $2             # -7 by 2, with signs
        mflo $13
        mfhi $14
        divu $8, $2             # 2^32 - 7 by 2, without
        mflo $15
        mfhi $16
        addiu $2, $0, -3
        mult $8, $2             # -7 times -3
        mflo $17
        mfhi $18
        multu $8, $2            # 2^32 - 7 times 2^32 - 3
        mflo $19
        mfhi $20
