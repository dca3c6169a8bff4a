# Exercise 6, an attack that fails. Environment 0, the victim, has a page of its own, whose words nobody is told, and accepts
# nobody. This program, environment 1, tries what it can, and is refused each time.
start:  # WRITE: find the victim's page, and try to bind it to read it, to bind it to store to it, to free it, and to enter
        # the victim by a transfer
rest:   li   $2, 0              # yield, for ever
        li   $4, -1
        syscall
        b    rest
        nop
