# Puts bytes of each kind, and exits.
start:  ori  $2, $0, 1          # put
        la   $4, text
        ori  $5, $0, 9
        syscall
        ori  $4, $0, 0
        ori  $2, $0, 2          # exit
        syscall
text:   .ascii " ~\"\\\n\t\0"
        .byte 0x7f, 0xff
