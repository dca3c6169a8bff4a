# Exercise 11, slices that are stolen. Environment 0 counts. This program, environment 1, goes on past the end of its slice,
# for as long as it can without dying of it. What it took is taken back: in its own slot, and in slot 2, which is empty.
.equ    most, 8                 # quanta of grace that it may owe

start:  # WRITE: name a handler of the ends of slices
steal:  # WRITE: go on until question 7 of a query says that so many quanta are owed. Then take slot 2, put a digit that says
        # how many turns will be forfeited, and name no handler any more
        b    steal
        nop
rest:   li   $2, 0              # yield, for ever
        li   $4, -1
        syscall
        b    rest
        nop

# WRITE: the handler, which goes back to $26 without a yield
