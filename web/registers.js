// The registers of an environment by their places, and the kinds of handlers (tools/registers.py, tools/kernel_layout.py).

export const AT = 1, K0 = 26, K1 = 27, HI = 32, LO = 33;
export const EXCEPTIONS = 0, STARTS = 1, ENDS = 2, ASYNCHRONOUS = 3;

/** The registers of a core, HI and LO after the others. */
export const registersOf = core => [...core.registers, core.hi, core.lo];
