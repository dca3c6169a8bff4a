# Words that `mipsel-linux-gnu-objdump -m mips:3000` writes as `.word`: a field set that the form doesn't use, or no
# instruction of MIPS I.
.word 0x00200000 # sll with bit 21
.word 0x00000044 # sllv with bit 6
.word 0x00010008 # jr with bit 16
.word 0x00000808 # jr with bit 11
.word 0x00000048 # jr with bit 6
.word 0x0001f809 # jalr with bit 16
.word 0x0000f849 # jalr with bit 6
.word 0x00200010 # mfhi with bit 21
.word 0x00010010 # mfhi with bit 16
.word 0x00000050 # mfhi with bit 6
.word 0x00200012 # mflo with bit 21
.word 0x00010012 # mflo with bit 16
.word 0x00000052 # mflo with bit 6
.word 0x00010011 # mthi with bit 16
.word 0x00000811 # mthi with bit 11
.word 0x00000051 # mthi with bit 6
.word 0x00010013 # mtlo with bit 16
.word 0x00000813 # mtlo with bit 11
.word 0x00000053 # mtlo with bit 6
.word 0x00000818 # mult with bit 11
.word 0x00000058 # mult with bit 6
.word 0x0000081a # div with bit 11
.word 0x0000005a # div with bit 6
.word 0x00000060 # add with bit 6
.word 0x0000006b # sltu with bit 6
.word 0x18010000 # blez with bit 16
.word 0x1c010000 # bgtz with bit 16
.word 0x3c200000 # lui with bit 21
.word 0x40000040 # mfc0 with bit 6
.word 0x40000001 # mfc0 with bit 0
.word 0x40800040 # mtc0 with bit 6
.word 0x40800001 # mtc0 with bit 0
.word 0x00000001 # function 1
.word 0x00000005 # function 5
.word 0x0000000a # function 10
.word 0x0000000b # function 11
.word 0x0000000e # function 14
.word 0x0000000f # function 15
.word 0x00000014 # function 20
.word 0x00000015 # function 21
.word 0x00000016 # function 22
.word 0x00000017 # function 23
.word 0x0000001c # function 28
.word 0x0000001d # function 29
.word 0x0000001e # function 30
.word 0x0000001f # function 31
.word 0x00000028 # function 40
.word 0x00000029 # function 41
.word 0x0000002c # function 44
.word 0x0000002f # function 47
.word 0x00000030 # function 48
.word 0x0000003f # function 63
.word 0x04020000 # regimm 2
.word 0x040f0000 # regimm 15
.word 0x04120000 # regimm 18
.word 0x041f0000 # regimm 31
.word 0x50000000 # opcode 20
.word 0x60000000 # opcode 24
.word 0x7c000000 # opcode 31
.word 0x9c000000 # opcode 39
.word 0xb0000000 # opcode 44
.word 0xb4000000 # opcode 45
.word 0xbc000000 # opcode 47
.word 0xd0000000 # opcode 52
.word 0xdc000000 # opcode 55
.word 0xf0000000 # opcode 60
.word 0xfc000000 # opcode 63
.word 0x40200000 # cop0 rs 1
.word 0x40a00000 # cop0 rs 5
