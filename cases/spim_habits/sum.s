# A program for SPIM: größer
        .data
msg:    .asciiz "sum: "
odd:    .byte 1
arr:    .word 3, -5, 7
n:      .word 3
        .globl main
        .text
main:   li $v0, 4
        la $a0, msg
        syscall
        lw $t1, n
        move $t0, $zero
        li $s0, 0
loop:   bge $t0, $t1, done
        mul $t2, $t0, 4
        lw $t3, arr($t2)
        add $s0, $s0, $t3
        add $t0, $t0, 1
        j loop
done:   sub $s0, $s0, 100
        move $a0, $s0
        jal print
        li $v0, 11
        li $a0, '\n'
        syscall
        li $v0, 10
        syscall
print:  li $v0, 1
        syscall
        jr $ra
