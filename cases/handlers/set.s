# Sets a handler of exceptions, and marks the registers that an exception changes. What a row adds stands at 0x0040001c.
start:  la   $5, handler
        ori  $2, $0, 8          # context: of kind 0, the handler of exceptions
        syscall
        ori  $1, $0, 0x11
        ori  $26, $0, 0x12
        ori  $27, $0, 0x13
