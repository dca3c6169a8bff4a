# Step 1: puts three bytes on the console, and exits with 0.
start:  la   $4, text           # where the bytes are
        li   $5, 3              # how many
        li   $2, 1              # put
        syscall
        li   $4, 0              # the code
        li   $2, 2              # exit
        syscall
.data
text:   .ascii "hi\n"
