# Exercise 10, a ring that is freed. From tick 1,000 on environment 0 has the lowest free page. This program, environment 1,
# has packets come into that page before, and frees it, so that the next ones come to whoever has it then.
start:  # WRITE: allocate the lowest free page, and claim the packets whose first byte is 0x41 into it, before tick 400
wait:   li   $2, 0              # yield
        li   $4, -1
        syscall
        # WRITE: once the word at 0x1140 says that a packet came, before tick 1,000, free the page. Then try what is left of
        # it: withdraw the claim, and claim into the page again
        b    wait
        nop
