# The addresses of the context page, to paste into a program: what the kernel stores there (docs/KERNEL.md). `.equ` may stand
# anywhere above the lines that use the names.
# Before the last exception that a handler got:
.equ exception_1,       0x1000  # $1
.equ exception_26,      0x1004  # $26
.equ exception_27,      0x1008  # $27
.equ exception_epc,     0x100c  # the address to go on at
.equ exception_bad,     0x1010  # the bad address
.equ exception_cause,   0x1014
# Before the last start and the last end that a handler got:
.equ start_26,          0x1040
.equ start_resume,      0x1044
.equ end_26,            0x1050
.equ end_resume,        0x1054
.equ end_cause,         0x1058
# Before the last transfer that entered the program: $1 to $31, and what the call is
.equ entry_1,           0x1080
.equ entry_2,           0x1084
.equ entry_3,           0x1088
.equ entry_4,           0x108c
.equ entry_5,           0x1090
.equ entry_6,           0x1094
.equ entry_7,           0x1098
.equ entry_8,           0x109c
.equ entry_9,           0x10a0
.equ entry_10,          0x10a4
.equ entry_11,          0x10a8
.equ entry_12,          0x10ac
.equ entry_13,          0x10b0
.equ entry_14,          0x10b4
.equ entry_15,          0x10b8
.equ entry_16,          0x10bc
.equ entry_17,          0x10c0
.equ entry_18,          0x10c4
.equ entry_19,          0x10c8
.equ entry_20,          0x10cc
.equ entry_21,          0x10d0
.equ entry_22,          0x10d4
.equ entry_23,          0x10d8
.equ entry_24,          0x10dc
.equ entry_25,          0x10e0
.equ entry_26,          0x10e4
.equ entry_27,          0x10e8
.equ entry_28,          0x10ec
.equ entry_29,          0x10f0
.equ entry_30,          0x10f4
.equ entry_31,          0x10f8
.equ entry_hi,          0x10fc
.equ entry_lo,          0x1100
.equ entry_resume,      0x1104
.equ entry_caller,      0x1108
.equ entry_kind,        0x110c  # 0 asynchronous, 1 synchronous
# Of what comes from outside:
.equ post_packets,      0x1140  # packets that came, lost ones too
.equ post_lost,         0x1144  # packets that were lost
.equ post_lines,        0x1148  # a bit for each interrupt line on which a signal came
.equ post_outstanding,  0x114c  # pages that were outstanding when the program was last asked for some
.equ post_deadline,     0x1150  # the tick in which those are taken that it hasn't freed
# Of pages that were taken from it: how many, and the first record. The next record is 8 bytes further on; there is room for 64.
.equ taken_count,       0x117c
.equ taken_page,        0x1180
.equ taken_backup,      0x1184  # the backup that has a copy, or -1
# Shows that a name is in reach of $0: exits with what the kernel left there, which is 0 where nobody called.
start:  lw   $4, entry_caller($0)
        li   $2, 2              # exit
        syscall
