SELECT step, func, a4 FROM states WHERE pc = 0x10114
