# Handles ends, and uses up three quanta of grace. Then it exits.
start:  ori  $2, $0, 8          # context: ends are handled at ended
        ori  $4, $0, 2
        la   $5, ended
        syscall
stay:   b    stay
        nop
ended:  ori  $8, $0, 16
count:  addiu $8, $8, -1
        bne  $8, $0, count
        nop
        ori  $4, $0, 0
        ori  $2, $0, 2          # exit
        syscall
