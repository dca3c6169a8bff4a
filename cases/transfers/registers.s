# Both environments fill their registers and make an asynchronous call, which is granted to environment 0. Environment 1
# is stopped before, behind a branch whose delay slot is due.
start:  ori  $2, $0, 20         # self
        syscall
        bne  $3, $0, target
        nop
        ori  $1, $0, 0x2201
        ori  $3, $0, 0x2203
        ori  $6, $0, 0x2206
        ori  $7, $0, 0x2207
        ori  $8, $0, 0x2208
        ori  $9, $0, 0x2209
        ori  $10, $0, 0x220a
        ori  $11, $0, 0x220b
        ori  $12, $0, 0x220c
        ori  $13, $0, 0x220d
        ori  $14, $0, 0x220e
        ori  $15, $0, 0x220f
        ori  $16, $0, 0x2210
        ori  $17, $0, 0x2211
        ori  $18, $0, 0x2212
        ori  $19, $0, 0x2213
        ori  $20, $0, 0x2214
        ori  $21, $0, 0x2215
        ori  $22, $0, 0x2216
        ori  $23, $0, 0x2217
        ori  $24, $0, 0x2218
        ori  $25, $0, 0x2219
        ori  $26, $0, 0x221a
        ori  $27, $0, 0x221b
        ori  $28, $0, 0x221c
        ori  $29, $0, 0x221d
        ori  $30, $0, 0x221e
        ori  $31, $0, 0x221f
        mthi $30
        mtlo $31
        ori  $2, $0, 10         # transfer
        ori  $4, $0, 1
        ori  $5, $0, 0          # asynchronous
        syscall
hold:   b    hold               # at 0x00400098
        nop

target: ori  $2, $0, 8          # context: asynchronous transfers enter at entered
        ori  $4, $0, 3
        la   $5, entered
        syscall
        ori  $1, $0, 0x1101
        ori  $2, $0, 0x1102
        ori  $3, $0, 0x1103
        ori  $4, $0, 0x1104
        ori  $5, $0, 0x1105
        ori  $6, $0, 0x1106
        ori  $7, $0, 0x1107
        ori  $8, $0, 0x1108
        ori  $9, $0, 0x1109
        ori  $10, $0, 0x110a
        ori  $11, $0, 0x110b
        ori  $12, $0, 0x110c
        ori  $13, $0, 0x110d
        ori  $14, $0, 0x110e
        ori  $15, $0, 0x110f
        ori  $16, $0, 0x1110
        ori  $17, $0, 0x1111
        ori  $18, $0, 0x1112
        ori  $19, $0, 0x1113
        ori  $20, $0, 0x1114
        ori  $21, $0, 0x1115
        ori  $22, $0, 0x1116
        ori  $23, $0, 0x1117
        ori  $24, $0, 0x1118
        ori  $25, $0, 0x1119
        ori  $26, $0, 0x111a
        ori  $27, $0, 0x111b
        ori  $28, $0, 0x111c
        ori  $29, $0, 0x111d
        ori  $30, $0, 0x111e
        ori  $31, $0, 0x111f
        mthi $1
        mtlo $2
loop:   b    loop               # at 0x00400138
        nop
entered:
        ori  $2, $0, 1          # put, at 0x00400140: the entry area
        ori  $4, $0, 0x1080
        ori  $5, $0, 144
        syscall
stay:   b    stay
        nop
