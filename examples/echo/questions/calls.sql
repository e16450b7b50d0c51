SELECT step, pc, a0, a7 FROM states WHERE insn = 115
