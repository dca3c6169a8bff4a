# Handles ends, without a slot. After the end of the slice that it is given it runs on for seven quanta, and then yields.
start:  ori  $2, $0, 8          # context: ends are handled at ended
        ori  $4, $0, 2
        la   $5, ended
        syscall
stay:   b    stay
        nop
ended:  ori  $8, $0, 37         # 1 + 3 * 37 = 112 ticks, which are seven quanta; the yield is three ticks more
count:  addiu $8, $8, -1
        bne  $8, $0, count
        nop
        addiu $4, $0, -1
        ori  $2, $0, 0          # yield, to whoever is next
        syscall
