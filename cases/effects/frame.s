# Sets a handler of exceptions, HI, LO and registers, $8 and $9 to the operands of a row, and runs its instruction. The
# load behind it, which is in its delay slot if it has one, finds what became of `word`, and so does the handler's.
start:  la   $5, handler
        ori  $2, $0, 8          # context: of kind 0, the handler of exceptions
        syscall
        li   $2, 0x1111
        mthi $2
        li   $2, 0x2222
        mtlo $2
        ori  $1, $0, 1
        ori  $26, $0, 1
        ori  $27, $0, 1
        la   $12, word
        lw   $11, 0($12)
        li   $10, 0xaabbccdd
        li   $8, FIRST
        li   $9, SECOND
here:   INSTRUCTION
        lw   $11, 0($12)
        nop
        nop
there:  nop
handler:
        lw   $11, 0($12)
stay:   b    stay
        nop
        .data
word:   .word 0x44332211, 0x7f00ff80
