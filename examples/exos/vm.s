# ExOS, virtual memory. The program has a page table of its own. Pages are allocated when they are first touched, and a
# page that was stored to is known to be dirty.
#
# Who decides what
#
#   The kernel says which page is whose. It binds a page where the program asks, since the page is the program's own, and it
#   checks that on every bind. It has no page table, and it never chooses a page for an address. An access that has no
#   binding, or a store through a read-only one, is an exception, and the kernel passes it to the program.
#
#   The program decides the rest: which addresses are memory, when a page is allocated for them, when it may be stored to, and
#   in what form it notes all that. The page table below is a list of 16 words. It could be a tree or a hash table as well,
#   and the kernel would be the same.
#
# How the kernel protects
#
#   A wrong table harms nobody else. A bind of another's page is refused, whatever the table says, unless the program has a
#   word for that page. A page is full of zeros when it is allocated, so nothing of its last owner is seen.
#
# The page table
#
#   Word i is for the VPN 0x500 + i:
#
#     bits 31:12  the page
#     bit 1       dirty: it was stored to, and is bound writable
#     bit 0       mapped: there is a page
#
# What happens at an access
#
#   no page yet       a miss (TLBL or TLBS). The handler allocates a page and binds it read-only.
#   a first store     Mod, since the binding is read-only. The handler sets the dirty bit and binds the page writable.
#   a lost binding    a miss at a page that is mapped. The kernel has room for a binding in each of 256 rows, in version 2 of
#                     128, and a bind at a VPN so many further on takes the row. The handler binds the page again as the table
#                     says. So the kernel's bindings are a cache of the table, as a TLB is.
#   no page is free   where the kernel has asked another environment for one (22), the handler yields and calls again.
#
# A first store at an address without a page is two exceptions: the handler only ever binds a new page read-only. That is
# how dirty bits are kept on a machine that has none.
#
# The run
#
#   It loads word 0 of all 16 pages, which maps them. It stores i into word 0 of each even page i, which makes eight pages
#   dirty. It adds up the 16 words, and prints how many pages are mapped, how many are dirty, and the sum.
#
# What it leaves out
#
#   Pages that the kernel takes back. A program that may be asked for pages clears their entries, or loads backups. Else the
#   table goes on having a page that is gone, and the page may even be allocated again, for another entry. pressure.s gives
#   pages back when it is asked.

# Calls of the kernel: the number is in $2, arguments are in $4 to $8; the answer's code is in $2, its value in $3
.equ call_yield,        0       # $4 an environment, or any
.equ call_put,          1       # $4 address, $5 length
.equ call_exit,         2       # $4 code
.equ call_alloc,        3       # $4 a page or any; $5, $6 the word to read it and $7, $8 the word to write it
.equ call_bind,         6       # $4 VPN, $5 a page, $6 not 0 to store to it too; $7, $8 the word
.equ call_context,      8       # $4 kind, $5 the handler's address
.equ any_page,          -1
.equ any_environment,   -1
.equ again,             22      # the answer where another environment was asked for a page
.equ kind_exceptions,   0

# The context page: what the kernel keeps of the program at an exception, and a place for what the handler uses
.equ exception_1,       0x1000
.equ exception_26,      0x1004
.equ exception_27,      0x1008
.equ kept,              0x1800

# Exceptions: bits 6:2 of Cause
.equ cause_code,        0x7c
.equ cause_mod,         0x04    # a store through a read-only binding
.equ cause_tlbl,        0x08    # a load or fetch where no page is
.equ cause_tlbs,        0x0c    # a store where no page is

# The memory that the page table is for
.equ page_size,         0x1000
.equ two_pages,         0x2000
.equ pages,             16
.equ first_vpn,         0x500
.equ memory,            0x500000
.equ memory_end,        0x510000

# Bits of an entry
.equ mapped,            1
.equ dirty,             2

# --- The program. It knows nothing of pages -----------------------------------------------------------------------------

start:  li   $2, call_context
        li   $4, kind_exceptions
        la   $5, fault
        syscall
        li   $18, memory_end

        li   $16, memory
load:   lw   $8, 0($16)         # a miss: a page of zeros appears here
        addiu $16, $16, page_size
        bne  $16, $18, load
        nop

        li   $16, memory
        li   $17, 0             # i
store:  sw   $17, 0($16)        # Mod: the page is dirty from here on
        addiu $17, $17, 2
        addiu $16, $16, two_pages
        bne  $16, $18, store
        nop

        li   $16, memory
        li   $17, 0             # the sum
add:    lw   $8, 0($16)
        addiu $16, $16, page_size
        bne  $16, $18, add
        addu $17, $17, $8       # runs before the branch is over

# What the page table says: $19 pages that are mapped, $20 pages that are dirty
        la   $16, table
        la   $18, table_end
        li   $19, 0
        li   $20, 0
count:  lw   $8, 0($16)
        addiu $16, $16, 4
        andi $9, $8, mapped
        addu $19, $19, $9
        andi $9, $8, dirty
        srl  $9, $9, 1
        bne  $16, $18, count
        addu $20, $20, $9

        li   $2, call_put
        la   $4, name
        li   $5, name_length
        syscall
        move $4, $19
        jal  print
        ori  $5, $0, space
        move $4, $20
        jal  print
        ori  $5, $0, space
        move $4, $17
        jal  print
        ori  $5, $0, line_feed
        li   $2, call_exit
        li   $4, 0
        syscall

# --- The handler of exceptions ------------------------------------------------------------------------------------------
# $1 has Cause, $26 the address to go on at, and $27 the bad address.
# $9 is the address of the page table's entry, and $10 the entry.

fault:  sw   $2, kept($0)
        sw   $3, kept+4($0)
        sw   $4, kept+8($0)
        sw   $5, kept+12($0)
        sw   $6, kept+16($0)
        sw   $7, kept+20($0)
        sw   $8, kept+24($0)
        sw   $9, kept+28($0)
        sw   $10, kept+32($0)

        srl  $9, $27, 12        # the VPN
        li   $8, first_vpn
        subu $9, $9, $8
        sltiu $8, $9, pages
        beq  $8, $0, give_up    # the table isn't for this address
        sll  $9, $9, 2
        la   $8, table
        addu $9, $9, $8
        lw   $10, 0($9)

        andi $1, $1, cause_code
        li   $8, cause_mod
        beq  $1, $8, first_store
        nop
        li   $8, cause_tlbl
        beq  $1, $8, miss
        nop
        li   $8, cause_tlbs
        bne  $1, $8, give_up    # the exception is of another kind
        nop

miss:   andi $8, $10, mapped
        bne  $8, $0, install    # the page is there, and its binding is lost
        nop
        li   $2, call_alloc
        li   $4, any_page
        move $5, $0             # no words: nobody else may bind it
        move $6, $0
        move $7, $0
        move $8, $0
        syscall
        bne  $2, $0, wait
        sll  $10, $3, 12
        b    install
        ori  $10, $10, mapped

wait:   li   $8, again
        bne  $2, $8, give_up    # none is free, and there is nobody to ask
        move $10, $0
        li   $2, call_yield
        li   $4, any_environment
        syscall
        b    miss
        nop

first_store: ori $10, $10, dirty

install: sw  $10, 0($9)
        li   $2, call_bind
        srl  $4, $27, 12
        srl  $5, $10, 12
        andi $6, $10, dirty     # it may be stored to if it is dirty. Its owner needs no word in $7 and $8
        syscall
        bne  $2, $0, give_up    # it isn't this program's page any more
        nop

        lw   $2, kept($0)
        lw   $3, kept+4($0)
        lw   $4, kept+8($0)
        lw   $5, kept+12($0)
        lw   $6, kept+16($0)
        lw   $7, kept+20($0)
        lw   $8, kept+24($0)
        lw   $9, kept+28($0)
        lw   $10, kept+32($0)
        lw   $1, exception_1($0)
        lw   $27, exception_27($0)
        jr   $26                # the access once more
        lw   $26, exception_26($0)

give_up: li  $2, call_exit
        li   $4, 1
        syscall

# --- The console --------------------------------------------------------------------------------------------------------
# Puts the number $4 in decimal, and behind it the character $5. The digits are made from the last one on.

print:  la   $6, behind
        sb   $5, 0($6)
        li   $8, 10
digit:  divu $4, $8
        mflo $4                 # what is left
        mfhi $9                 # the last digit
        addiu $9, $9, zero
        addiu $6, $6, -1
        bne  $4, $0, digit
        sb   $9, 0($6)
        li   $2, call_put
        move $4, $6             # from the first digit on
        la   $5, behind+1
        subu $5, $5, $6
        syscall
        jr   $31
        nop

.equ line_feed,         0x0a
.equ space,             0x20
.equ zero,              0x30    # the digit 0
.equ name_length,       3
.data
table:  .space 64               # a word for each of the 16 pages
table_end:
name:   .ascii "vm "
digits: .space 10
behind: .byte 0
