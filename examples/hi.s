# Puts "hi" on the console, and exits with 7. The program is mapped at 0x2000, and its text at 0x2020: the assembler
# gives addresses from 0x00400000 on, so this one is written as a number.
.equ    text, 0x2020
        ori  $4, $0, text
        ori  $5, $0, 2
        ori  $2, $0, 1          # put
        syscall
        ori  $4, $0, 7
        ori  $2, $0, 2          # exit
        syscall
        nop
        .ascii "hi"             # at 0x2020
