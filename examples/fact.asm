# For SPIM or MARS: asks for a number and prints its factorial. `tools/from_spim` translates it.
        .data
ask:    .asciiz "n? "
        .text
        .globl main
main:   li $v0, 4               # print_string
        la $a0, ask
        syscall
        li $v0, 5               # read_int
        syscall
        move $a0, $v0
        jal factorial
        move $a0, $v0
        li $v0, 1               # print_int
        syscall
        li $v0, 10              # exit
        syscall

factorial: bgtz $a0, more
        li $v0, 1
        jr $ra
more:   sub $sp, $sp, 8
        sw $ra, 4($sp)
        sw $a0, 0($sp)
        sub $a0, $a0, 1
        jal factorial
        lw $a0, 0($sp)
        lw $ra, 4($sp)
        add $sp, $sp, 8
        mul $v0, $v0, $a0
        jr $ra
