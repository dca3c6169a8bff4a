# Every instruction, further form and directive.
start:  sll $1,$2,3
        srl $4,$5,31
        sra $6,$7,0
        sllv $8,$9,$10
        srlv $t3,$t4,$t5
        srav $t6,$t7,$s0
        jr $ra
        jalr $31,$25
        syscall
        syscall 1048575
        break
        break 7173
        mfhi $s1
        mflo $s2
        mthi $s3
        mtlo $s4
        mult $s5,$s6
        multu $s7,$t8
        div $t9,$k0
        divu $k1,$gp
        add $sp,$fp,$ra
        sub $zero,$at,$v0
        addu $v1,$a0,$a1
        subu $a2,$a3,$t0
        and $t1,$t2,$011
        or $12,$13,$14
        xor $15,$16,$17
        nor $18,$19,$20
        slt $21,$22,$23
        sltu $24,$25,$26
back:   bltz $2,back
        bgez $3,ahead
        bltzal $4,back+4
        bgezal $5,ahead-8
        j back
        jal ahead
        beq $6,$7,start
        bne $8,$9,ahead
        blez $10,back
        bgtz $11,ahead
ahead:  addi $12,$13,-32768
        addiu $14,$15,32767
        slti $16,$17,-1
        sltiu $18,$19,0xffffffff
        andi $20,$21,65535
        ori $22,$23,lo(table)
        xori $24,$25,0x00fF
        lui $26,hi(table+2)
        lb $27,-4($28)
        lh $29,lo(table)($30)
        lbu $31,($0)
        lhu $1,0x10($2)
        lw $3,size($4)
        lwl $5,3($6)
        lwr $7,0($8)
        sb $9,1($10)
        sh $11,2($12)
        sw $13,-32768($14)
        swl $15,32767($16)
        swr $17,lo(hi(table))($18)
        mfc0 $8,$12
        mtc0 $t1,$14
        tlbr
        tlbwi
        tlbwr
        tlbp
        rfe
        nop
        move $9,$10
        b ahead
        li $11,-2
        la $12,table+4
        .byte 1 # the next is aligned
        .align 4
        .word table, hi(table) ,-1,ahead
        .data
msg:    .ascii "a#b\n\t\\\""
        .asciiz "done!\0"
        .align 1
        .half -32768,65535,lo(msg)
        .align 3
table:  .word 1,msg,table-4,0x80000000,lo(table)
        .byte -128,255,-1
        .equ size,16
        .space 3
        .byte size
        .text
        addiu $2,$0,size
