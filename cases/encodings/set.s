# Sets a handler of exceptions. The words that are to raise them follow, and then handler.s.
start:  la   $5, handler
        ori  $2, $0, 8          # context: of kind 0, the handler of exceptions
        syscall
        la   $16, causes
