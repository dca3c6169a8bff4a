/* Handlers of packets (docs/KERNEL.md), written in C: macros that make their words, and how one is given to a claim. A handler finds the
   packet at address 0 and the ring's page at ASH_PAGE; all registers are 0 but ASH_LENGTH and ASH_CLAIM.

       static const unsigned words[] __attribute__((aligned(256))) = {
           ASH_LW(8, 0, 14), ASH_SW(8, ASH_AT, 0x800), ASH_SEND };

   In place of a label a branch has the number of words that it passes over, of which the first is its delay slot. */
#ifndef ASH_H
#define ASH_H
#include "aegis.h"

enum { ASH_LENGTH = 4, ASH_CLAIM = 5, ASH_PAGE = 0x1000, ASH_MOST = 64 };

#define ASH_I(opcode, rs, rt, immediate) ((unsigned)(opcode) << 26 | (unsigned)(rs) << 21 | (unsigned)(rt) << 16 | ((unsigned)(immediate) & 0xffff))
#define ASH_R(function, rd, rs, rt) ((unsigned)(rs) << 21 | (unsigned)(rt) << 16 | (unsigned)(rd) << 11 | (function))

#define ASH_LI(rt, number) ASH_I(13, 0, rt, number) /* 0 to 65,535 */
#define ASH_ADD(rt, rs, number) ASH_I(9, rs, rt, number)
#define ASH_ADD_REGISTER(rd, rs, rt) ASH_R(33, rd, rs, rt)
#define ASH_SUB_REGISTER(rd, rs, rt) ASH_R(35, rd, rs, rt)
#define ASH_AND(rt, rs, number) ASH_I(12, rs, rt, number)
#define ASH_LB(rt, rs, offset) ASH_I(36, rs, rt, offset) /* without a sign, as ASH_LH */
#define ASH_LH(rt, rs, offset) ASH_I(37, rs, rt, offset)
#define ASH_LW(rt, rs, offset) ASH_I(35, rs, rt, offset)
#define ASH_SB(rt, rs, offset) ASH_I(40, rs, rt, offset)
#define ASH_SH(rt, rs, offset) ASH_I(41, rs, rt, offset)
#define ASH_SW(rt, rs, offset) ASH_I(43, rs, rt, offset)
#define ASH_BEQ(rs, rt, words) ASH_I(4, rs, rt, words)
#define ASH_BNE(rs, rt, words) ASH_I(5, rs, rt, words)
#define ASH_SEND 12u /* `$5` bytes from `$4` on, in the page */
#define ASH_END 13u

/* Gives a claim its handler, whose words lie in one page: the code is AEGIS_BAD_HANDLER and the value the place of the first bad word,
   if there is one. A handler: 9 ticks. */
#define ash_load(claim, words) aegis_handler(claim, words, sizeof(words) / sizeof *(words))

#endif
