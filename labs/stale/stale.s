# Exercise 9, a stale mapping. Environment 0 lends its page by a word until tick 600, and gives it another word then. This
# program, environment 1, keeps the page in use, so that the machine has a row for it, and goes on.
.equ    page, 20                # the page, and the word that is lent. The checker has other numbers in these two lines
.equ    word, 0x1234

start:  # WRITE: have exceptions handled, and bind the page at VPN 0x500 to store to it, once it is there
use:    # WRITE: store to the page, in each slice
        li   $2, 0              # yield
        li   $4, -1
        syscall
        b    use
        nop

# WRITE: the handler, which is entered at the first store after the recap. Bind the page again, by the word that was lent, and
# yield from there on.
