SELECT step, func, a7, a0 FROM states WHERE insn = 115
