# Mapped at 0x2000. Its only instruction is an exception.
start:  break
