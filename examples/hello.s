# Says hello, and exits with 0.
start:  la   $4, text
        li   $5, length
        li   $2, 1              # put: the console gets $5 bytes from address $4 on
        syscall
        li   $4, 0
        li   $2, 2              # exit, with the code in $4
        syscall
.data
text:   .ascii "hello\n"
.equ    length, 6
