# Claims all packets into a page of its own, and gives the claim the words from `handler` to `done` as its handler.
start:  addiu $4, $0, -1
        ori  $2, $0, 3          # alloc
        syscall
        la   $4, all
        ori  $5, $0, 1          # an atom
        move $6, $3             # the page
        ori  $2, $0, 14         # claim
        syscall
        move $4, $3
        la   $5, handler
        la   $6, done
        subu $6, $6, $5
        srl  $6, $6, 2          # how many words
        ori  $2, $0, 16         # handler
        syscall
stay:   b    stay
        nop
handler:
