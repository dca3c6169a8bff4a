# Stores a word below the stack pointer, and loads a byte and the word again.
start:  lui  $8, 0x1234
        ori  $8, $8, 0x9a78
        sw   $8, -4($29)
        lb   $9, -3($29)
        lw   $10, -4($29)
