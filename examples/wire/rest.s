# Yields for ever, beside a page with a secret.
start:  li   $2, 0              # yield, to whoever is next
        li   $4, -1
        syscall
        b    start
        nop
.data
secret: .ascii "nobody writes here"
