# Mapped at 0x2000. Jumps to where no instruction stands, first with a handler of exceptions and then without.
start:  ori  $2, $0, 8          # context: exceptions are handled at 0x2018
        ori  $5, $0, 0x2018
        syscall
        ori  $8, $0, 2          # at 0x200c
        jr   $8
        nop
        ori  $2, $0, 8          # at 0x2018: they aren't handled any more
        ori  $5, $0, 0
        syscall
        jr   $0                 # at 0x2024
        nop
