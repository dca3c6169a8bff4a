# Sends its own text, which may not be stored to, and dies of a break.
start:  la   $4, start
        li   $5, 20
        li   $2, 19             # send
        syscall
        break
