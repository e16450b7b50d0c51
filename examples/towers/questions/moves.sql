SELECT step, func, a0, a1 FROM states WHERE pc = 0x10094
