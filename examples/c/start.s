# Where a program begins: it calls main, and exits with what that returns. The kernel has set the stack pointer. By $28 code finds
# small data, where there is any.
        .set    noreorder
        .globl  start
start:  lui     $28, %hi(_gp)
        jal     main
        addiu   $28, $28, %lo(_gp)
        addu    $4, $2, $0
        ori     $2, $0, 2               # exit
        syscall
