# A program of your own: `Run` runs it, `Step` shows its steps.
start:  la   $4, text           # where the bytes are
        li   $5, 6              # how many
        li   $2, 1              # call 1, put
        syscall
        li   $4, 0              # the code
        li   $2, 2              # call 2, exit
        syscall
.data
text:   .ascii "hello\n"
