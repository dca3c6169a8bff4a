# Calls by SPIM's numbers in $2:
#
#   1   prints $4 in decimal              5   reads a line: $2 is the number with which it begins, 0 without one
#   4   prints the text at $4             8   reads a line of less than $5 bytes to $4, with a byte 0 after it
#   11  prints the character in $4        12  reads a character into $2
#   10  exits with 0                      17  exits with $4
#
# `la $26,spim` and `jalr $27,$26` make a call, which keeps all registers but the answer, $1, $26 and $27. Another number exits with
# 1. The console takes 65,536 bytes.
#
# What is read comes in packets of the kind 0x88b6 (`tools/try --input`): after 14 bytes of head is the text, and after the
# whole text a byte 0. A program that reads begins with `la $26,spim_start` and `jalr $27,$26`, so that it claims them before the
# first one comes. A read without a text that is left says so, and exits with 1.
.equ    spim_ring, 0x7000       # the upper half of the address at which the ring is seen
.equ    spim_vpn, 0x70000
.equ    spim_buffers, 0x800     # the bits in which the addresses of the ring's two buffers differ
.equ    spim_text_at, 18        # where a buffer's text begins: after the length and the head
.equ    spim_late, 2000         # the tick from which on no first packet is waited for

        .text
spim:   addiu $29, $29, -64
        sw   $2, 0($29)
        sw   $3, 4($29)
        sw   $4, 8($29)
        sw   $5, 12($29)
        sw   $8, 16($29)
        sw   $9, 20($29)
        mfhi $1
        sw   $1, 40($29)
        mflo $1
        sw   $1, 44($29)
        addiu $1, $0, 10
        beq  $2, $1, spim_exit
        move $8, $0             # the code, where it exits
        li   $1, 17
        beq  $2, $1, spim_exit
        move $8, $4
        addiu $5, $29, 39       # after the digits, of which there are at most eleven
        li   $1, 11
        beq  $2, $1, spim_character
        nop
        li   $1, 1
        beq  $2, $1, spim_number
        nop
        li   $1, 4
        beq  $2, $1, spim_text
        nop
        addiu $1, $0, 5
        beq  $2, $1, spim_read
        addiu $1, $0, 8
        beq  $2, $1, spim_read
        addiu $1, $0, 12
        beq  $2, $1, spim_read
        nop
spim_no: li  $8, 1
spim_exit: li $2, 2             # exit
        move $4, $8
        syscall

spim_character: sb $4, 28($29)
        addiu $4, $29, 28
        addiu $5, $0, 1
        b    spim_put
        nop

spim_number: move $8, $4        # its digits, from the last one on
        bgez $4, spim_digit
        addiu $1, $0, 10
        subu $8, $0, $8
spim_digit: divu $8, $1
        addiu $5, $5, -1
        mfhi $9
        mflo $8
        addiu $9, $9, 48
        bne  $8, $0, spim_digit
        sb   $9, 0($5)
        bgez $4, spim_digits
        addiu $9, $0, 45           # -
        addiu $5, $5, -1
        sb   $9, 0($5)
spim_digits: move $4, $5
        addiu $5, $29, 39
        subu $5, $5, $4
        b    spim_put
        nop

# A byte at a time, since what is put lies in one page.
spim_text: move $8, $4
spim_next: lbu $9, 0($8)
        move $4, $8
        beq  $9, $0, spim_back
        addiu $5, $0, 1
        li   $2, 1              # put
        syscall
        addiu $8, $8, 1
        b    spim_next
        nop

spim_put: li $2, 1              # put
        syscall
spim_back: lw $1, 40($29)
        lw   $2, 0($29)
        mthi $1
        lw   $1, 44($29)
        lw   $3, 4($29)
        mtlo $1
        lw   $4, 8($29)
        lw   $5, 12($29)
        lw   $8, 16($29)
        lw   $9, 20($29)
        jr   $27
        addiu $29, $29, 64

# --- What is read -----------------------------------------------------------------------------------------------

spim_read: sw $6, 48($29)
        sw   $7, 52($29)
        sw   $31, 56($29)
        la   $8, spim_state
        lw   $8, 8($8)          # 0 as long as nothing is claimed
        bne  $8, $0, spim_claimed
        nop
        jal  spim_claim
        nop
        la   $4, spim_refused
        bne  $2, $0, spim_say
        nop
spim_claimed: lw $2, 0($29)
        addiu $1, $0, 8
        beq  $2, $1, spim_line
        nop
        jal  spim_byte
        nop
        la   $4, spim_ended
        beq  $9, $0, spim_say
        lw   $2, 0($29)
        addiu $1, $0, 12
        bne  $2, $1, spim_blank
        move $6, $0             # the number's value
        b    spim_answer
        sw   $9, 0($29)         # a character

spim_blank: addiu $1, $0, 32    # blanks before a number
        beq  $9, $1, spim_pass
        addiu $1, $0, 9
        bne  $9, $1, spim_sign
        addiu $1, $0, 45
spim_pass: jal spim_byte
        nop
        b    spim_blank
        nop
spim_sign: bne $9, $1, spim_figure
        move $7, $0             # 1 after a minus sign
        jal  spim_byte
        addiu $7, $0, 1
spim_figure: addiu $9, $9, -48
        sltiu $1, $9, 10
        beq  $1, $0, spim_rest
        addiu $9, $9, 48
        sll  $1, $6, 3          # ten times the value
        addu $1, $1, $6
        addu $6, $6, $1
        addu $6, $6, $9
        jal  spim_byte
        addiu $6, $6, -48
        b    spim_figure
        nop
spim_rest: beq $9, $0, spim_value   # up to the end of the line, or of the text
        addiu $1, $0, 10
        beq  $9, $1, spim_value
        nop
        jal  spim_byte
        nop
        b    spim_rest
        nop
spim_value: beq $7, $0, spim_answer
        sw   $6, 0($29)
        subu $6, $0, $6
        b    spim_answer
        sw   $6, 0($29)

spim_line: lw $6, 8($29)        # where the line goes
        lw   $7, 12($29)        # for how many bytes there is room
        blez $7, spim_answer
        addiu $7, $7, -1        # the last is 0
        blez $7, spim_close
        nop
        jal  spim_byte
        nop
        la   $4, spim_ended
        beq  $9, $0, spim_say
        addiu $1, $0, 10
spim_letter: sb $9, 0($6)
        addiu $6, $6, 1
        beq  $9, $1, spim_close
        addiu $7, $7, -1
        blez $7, spim_close
        nop
        jal  spim_byte
        nop
        bne  $9, $0, spim_letter
        addiu $1, $0, 10
spim_close: sb $0, 0($6)
spim_answer: lw $6, 48($29)
        lw   $7, 52($29)
        b    spim_back
        lw   $31, 56($29)

# Takes the next byte into $9: 0 at the end of the text, as often as it is asked for. Keeps $5 to $7.
spim_byte: la $8, spim_state
        lw   $1, 0($8)          # where the byte is
        lw   $2, 4($8)          # where its packet ends
        bne  $1, $2, spim_take
        lw   $9, 8($8)          # the packet's buffer
        xori $9, $9, spim_buffers   # the next packet is in the other one
        sw   $9, 8($8)
spim_wait: lw $2, 0($9)         # its length, or 0
        lw   $1, 0x1144($0)     # how many packets were lost
        bne  $2, $0, spim_came
        nop
        la   $4, spim_lost
        bne  $1, $0, spim_say
        nop
        li   $2, 21             # clock
        syscall
        lw   $1, 0x1140($0)     # how many packets came
        sltiu $2, $3, spim_late
        bne  $1, $0, spim_yield
        nop
        la   $4, spim_nothing
        beq  $2, $0, spim_say
        nop
spim_yield: li $2, 0            # yield, to whoever is next
        li   $4, -1
        syscall
        b    spim_wait
        nop
spim_came: addu $2, $2, $9
        addiu $2, $2, 4
        addiu $1, $9, spim_text_at
        sw   $1, 0($8)
        sw   $2, 4($8)
        bne  $1, $2, spim_take
        nop
        sw   $0, 0($9)          # a packet without text
        b    spim_byte
        nop
spim_take: lbu $3, 0($1)
        addiu $1, $1, 1
        beq  $3, $0, spim_taken
        nop
        sw   $1, 0($8)
        bne  $1, $2, spim_taken
        nop
        sw   $0, 0($9)          # the buffer is empty
spim_taken: jr $31
        move $9, $3

# Says the text at $4, and exits with 1.
spim_say: la $27, spim_no
        b    spim_text
        nop

# Claims the packets, right at the start, when all registers are 0.
spim_start: jal spim_claim
        nop
        move $2, $0
        move $3, $0
        move $4, $0
        move $5, $0
        move $6, $0
        jr   $27
        move $31, $0

# Allocates the ring, binds it and claims the packets: $2 is 0, or why that was refused. Changes $3 to $8.
spim_claim: move $5, $0         # alloc: the lowest free page, which nobody else may bind
        move $6, $0
        move $7, $0
        move $8, $0
        li   $4, -1
        li   $2, 3
        syscall
        bne  $2, $0, spim_done
        move $5, $3             # bind: the page, to store to it too
        li   $4, spim_vpn
        li   $6, 1
        li   $2, 6
        syscall
        bne  $2, $0, spim_done
        move $6, $5             # claim: into the page
        la   $4, spim_filter
        li   $5, 1
        li   $2, 14
        syscall
        bne  $2, $0, spim_done
        nop
        la   $3, spim_state
        lui  $4, spim_ring
        ori  $4, $4, spim_buffers
        sw   $4, 8($3)          # the buffer before the first
spim_done: jr $31
        nop

        .data
# Each stands in one page, which begins at a multiple of the alignment.
        .align 4
spim_filter: .half 12, 2
        .word 0xffff, 0x88b6
        .align 2
spim_state: .space 12           # where the next byte is; where its packet ends; the packet's buffer
spim_refused: .asciiz "\nspim: the input can't be claimed: another program may have it\n"
spim_ended: .asciiz "\nspim: no input is left\n"
spim_nothing: .asciiz "\nspim: there is no input: `tools/try --input TEXT` gives it some\n"
spim_lost: .asciiz "\nspim: a part of the input is lost, since it came faster than it was read\n"
