# Fifteen instructions, and a branch whose delay slot isn't run in the first slice of 16 ticks. The branch links, so it
# is taken when it runs first and isn't when it runs again.
start:  lui  $31, 0x8000
        nop
        nop
        nop
        nop
        nop
        nop
        nop
        nop
        nop
        nop
        nop
        nop
        nop
        nop
        bltzal $31, start
        nop
