# Exercise 3, a server. It keeps a total. Environments 1, 2 and 3 call it by synchronous transfers, each with a number in $16,
# and each gets back in $16 the total of all numbers so far. A client's slot is that of its own number.
start:  # WRITE: name an entry for synchronous transfers, and accept clients
rest:   li   $2, 0              # yield, to whoever is next
        li   $4, -1
        syscall
        b    rest
        nop

# WRITE: the entry. All registers are the client's; its number is in the word at 0x1108. Add, answer by an asynchronous
# transfer, and give the client's slot back at the next turn.

.data
total:  .word 0
