SELECT step, pc, a0, a1 FROM states WHERE step >= 4
