# Two lines, and the code 3.
start:  la   $4, text
        li   $5, 9
        li   $2, 1              # put
        syscall
        li   $4, 3
        li   $2, 2              # exit
        syscall
.data
text:   .ascii "hi\nthere\n"
