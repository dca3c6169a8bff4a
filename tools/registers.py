"""The registers of an environment by their places: `$0` to `$31`, then HI and LO."""

from __future__ import annotations

SP, HI, LO = 29, 32, 33
REGISTERS = 34
FIRST_STACK = 0x7FFEFFF0  # the stack pointer at boot, when all others are 0
NAMES = [f"${number} {name}" for number, name in enumerate(
    "zero at v0 v1 a0 a1 a2 a3 t0 t1 t2 t3 t4 t5 t6 t7 s0 s1 s2 s3 s4 s5 s6 s7 t8 t9 k0 k1 gp sp fp ra".split())]
NAMES += ["hi", "lo"]
