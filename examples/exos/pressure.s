# ExOS, pages under pressure. Two environments run this program. Each uses 16 pages of memory, and the machine has fewer than
# both want together: they pass pages to each other.
#
# Who decides what
#
#   The kernel finds no page free. It asks the other environment, of which most may be taken, for one page, and says so in that
#   environment's context page: how many are outstanding, and by when. The caller is answered 22, again. Nothing is taken before
#   the deadline.
#
#   The program that wants a page decides how it waits. Here it yields, and calls again.
#
#   The program that is asked decides which page it gives. Here it is a clean one: a page that was never stored to holds zeros,
#   and can be had again by the next miss. Pages are looked at in turn, so that the one that came last isn't the first to go.
#
# When it looks
#
#   At the start of each slice, which is early enough: the deadline is two quanta after the call, and whoever calls yields. And
#   before it yields itself, and after each exception, since in the midst of one a start leaves the table alone.
#
# How the kernel protects
#
#   An environment that gives nothing loses a page at the deadline, and hears of it by the next miss. So nobody can keep what
#   others need by not looking. Who looks keeps the choice.
#
# The page table is that of vm.s:
#
#   Word i is for the VPN 0x500 + i:
#
#     bits 31:12  the page
#     bit 1       dirty: it was stored to, and is bound writable
#     bit 0       mapped: there is a page
#
# The run
#
#   As in vm.s each loads from all 16 pages, stores i into word 0 of each even page i, and adds up. It prints the sum, how often
#   it waited, and how many pages it gave back.
#
# What it leaves out
#
#   Dirty pages. They would be written somewhere before they are given, or loaded backups would take what they hold.

# Calls of the kernel: the number is in $2, arguments are in $4 to $8; the answer's code is in $2, its value in $3
.equ call_yield,        0       # $4 an environment, or any
.equ call_put,          1       # $4 address, $5 length
.equ call_exit,         2       # $4 code
.equ call_alloc,        3       # $4 a page or any; $5, $6 the word to read it and $7, $8 the word to write it
.equ call_free,         4       # $4 a page
.equ call_bind,         6       # $4 VPN, $5 a page, $6 not 0 to store to it too; $7, $8 the word
.equ call_context,      8       # $4 kind, $5 the handler's address
.equ any,               -1
.equ kind_exceptions,   0
.equ kind_starts,       1
.equ again,             22      # the answer where another environment was asked for a page

# The context page: what the kernel keeps of the program, what it asks, and a place for the handlers
.equ exception_1,       0x1000
.equ exception_26,      0x1004
.equ exception_27,      0x1008
.equ start_26,          0x1040
.equ outstanding,       0x114c
.equ kept,              0x1800  # registers, during an exception
.equ kept_at_start,     0x1840
.equ busy,              0x1880  # not 0 in the midst of an exception
.equ hand,              0x1884  # where in the table a page to give is looked for next
.equ waits,             0x1888
.equ gifts,             0x188c

# Exceptions: bits 6:2 of Cause
.equ cause_code,        0x7c
.equ cause_mod,         0x04    # a store through a read-only binding
.equ cause_tlbl,        0x08    # a load or fetch where no page is
.equ cause_tlbs,        0x0c    # a store where no page is

# The memory that the page table is for
.equ page_size,         0x1000
.equ two_pages,         0x2000
.equ pages,             16
.equ last_entry,        0x3c    # bytes
.equ first_vpn,         0x500
.equ memory,            0x500000
.equ memory_end,        0x510000

# Bits of an entry
.equ mapped,            1
.equ dirty,             2
.equ both,              3

# --- The program. It knows nothing of pages -----------------------------------------------------------------------------

start:  li   $2, call_context
        li   $4, kind_exceptions
        la   $5, fault
        syscall
        li   $2, call_context
        li   $4, kind_starts
        la   $5, begun
        syscall
        li   $18, memory_end

        li   $16, memory
load:   lw   $8, 0($16)         # a miss: a page of zeros appears here
        addiu $16, $16, page_size
        bne  $16, $18, load
        nop

        li   $16, memory
        li   $17, 0             # i
store:  sw   $17, 0($16)        # Mod: the page is dirty from here on, and isn't given back
        addiu $17, $17, 2
        addiu $16, $16, two_pages
        bne  $16, $18, store
        nop

        li   $16, memory
        li   $17, 0             # the sum
add:    lw   $8, 0($16)         # a miss where the page was given back
        addiu $16, $16, page_size
        bne  $16, $18, add
        addu $17, $17, $8       # runs before the branch is over

        li   $2, call_put
        la   $4, name
        li   $5, name_length
        syscall
        move $4, $17
        jal  print
        ori  $5, $0, space
        lw   $4, waits($0)
        jal  print
        ori  $5, $0, space
        lw   $4, gifts($0)
        jal  print
        ori  $5, $0, line_feed
        li   $2, call_exit
        li   $4, 0
        syscall

# --- The handler of exceptions ------------------------------------------------------------------------------------------
# $1 has Cause, $26 the address to go on at, and $27 the bad address.
# $9 is the address of the page table's entry, and $10 the entry.

fault:  sw   $2, kept($0)
        sw   $3, kept+4($0)
        sw   $4, kept+8($0)
        sw   $5, kept+12($0)
        sw   $6, kept+16($0)
        sw   $7, kept+20($0)
        sw   $8, kept+24($0)
        sw   $9, kept+28($0)
        sw   $10, kept+32($0)
        sw   $31, kept+36($0)
        li   $8, 1
        sw   $8, busy($0)

        srl  $9, $27, 12        # the VPN
        li   $8, first_vpn
        subu $9, $9, $8
        sltiu $8, $9, pages
        beq  $8, $0, give_up    # the table isn't for this address
        sll  $9, $9, 2
        la   $8, table
        addu $9, $9, $8
        lw   $10, 0($9)

        andi $1, $1, cause_code
        li   $8, cause_mod
        beq  $1, $8, first_store
        nop
        li   $8, cause_tlbl
        beq  $1, $8, miss
        nop
        li   $8, cause_tlbs
        bne  $1, $8, give_up    # the exception is of another kind
        nop

miss:   andi $8, $10, mapped
        bne  $8, $0, install    # the page is there, and its binding is lost
        nop
        li   $2, call_alloc
        li   $4, any
        move $5, $0             # no words: nobody else may bind it
        move $6, $0
        move $7, $0
        move $8, $0
        syscall
        bne  $2, $0, wait
        sll  $10, $3, 12
        b    install
        ori  $10, $10, mapped

wait:   li   $8, again
        bne  $2, $8, give_up    # no page is free, and there is nobody to ask
        move $10, $0
        lw   $8, waits($0)
        jal  give               # it may be asked itself
        addiu $8, $8, 1
        sw   $8, waits($0)
        li   $2, call_yield
        li   $4, any
        syscall
        b    miss
        nop

first_store: andi $8, $10, mapped
        beq  $8, $0, miss       # a start came first, and gave the page back
        nop
        ori  $10, $10, dirty

install: sw  $10, 0($9)
        li   $2, call_bind
        srl  $4, $27, 12
        srl  $5, $10, 12
        andi $6, $10, dirty     # it may be stored to if it is dirty. Its owner needs no word in $7 and $8
        syscall
        bne  $2, $0, give_up    # it isn't this program's page any more
        nop
        jal  give
        nop

        sw   $0, busy($0)
        lw   $2, kept($0)
        lw   $3, kept+4($0)
        lw   $4, kept+8($0)
        lw   $5, kept+12($0)
        lw   $6, kept+16($0)
        lw   $7, kept+20($0)
        lw   $8, kept+24($0)
        lw   $9, kept+28($0)
        lw   $10, kept+32($0)
        lw   $31, kept+36($0)
        lw   $1, exception_1($0)
        lw   $27, exception_27($0)
        jr   $26                # the access once more
        lw   $26, exception_26($0)

give_up: li  $2, call_exit
        li   $4, 1
        syscall

# --- The handler of starts ----------------------------------------------------------------------------------------------
# $26 is the address to go on at. It is through long before the slice is over.

begun:  sw   $2, kept_at_start($0)
        sw   $3, kept_at_start+4($0)
        sw   $4, kept_at_start+8($0)
        sw   $5, kept_at_start+12($0)
        sw   $6, kept_at_start+16($0)
        sw   $7, kept_at_start+20($0)
        sw   $11, kept_at_start+24($0)
        sw   $31, kept_at_start+28($0)
        lw   $2, busy($0)
        nop
        bne  $2, $0, resume
        nop
        jal  give
        nop
resume: lw   $2, kept_at_start($0)
        lw   $3, kept_at_start+4($0)
        lw   $4, kept_at_start+8($0)
        lw   $5, kept_at_start+12($0)
        lw   $6, kept_at_start+16($0)
        lw   $7, kept_at_start+20($0)
        lw   $11, kept_at_start+24($0)
        lw   $31, kept_at_start+28($0)
        jr   $26
        lw   $26, start_26($0)

# --- Giving back --------------------------------------------------------------------------------------------------------
# Frees a clean page for each that is outstanding, as far as there are any. It uses $2 to $7 and $11.

give:   lw   $7, outstanding($0)
        sw   $0, outstanding($0) # from here on each request is another one. The kernel counts by itself
        beq  $7, $0, given
        ori  $11, $0, pages     # that many entries are looked at, each once
look:   lw   $6, hand($0)
        la   $5, table
        addu $5, $5, $6
        addiu $6, $6, 4
        andi $6, $6, last_entry
        sw   $6, hand($0)
        lw   $6, 0($5)
        addiu $11, $11, -1
        andi $4, $6, both
        addiu $4, $4, -1        # 0 if it is mapped and not dirty
        bne  $4, $0, next
        nop
        sw   $0, 0($5)
        li   $2, call_free
        srl  $4, $6, 12
        syscall
        lw   $6, gifts($0)
        addiu $7, $7, -1
        addiu $6, $6, 1
        beq  $7, $0, given
        sw   $6, gifts($0)
next:   bne  $11, $0, look
        nop
given:  jr   $31
        nop

# --- The console --------------------------------------------------------------------------------------------------------
# Puts the number $4 in decimal, and after it the character $5. The digits are made from the last one on.

print:  la   $6, behind
        sb   $5, 0($6)
        li   $8, 10
digit:  divu $4, $8
        mflo $4                 # what is left
        mfhi $9                 # the last digit
        addiu $9, $9, zero
        addiu $6, $6, -1
        bne  $4, $0, digit
        sb   $9, 0($6)
        li   $2, call_put
        move $4, $6             # from the first digit on
        la   $5, behind+1
        subu $5, $5, $6
        syscall
        jr   $31
        nop

.equ line_feed,         0x0a
.equ space,             0x20
.equ zero,              0x30    # the digit 0
.equ name_length,       9
.data
table:  .space 64               # a word for each of the 16 pages
name:   .ascii "pressure "
digits: .space 10
behind: .byte 0
