SELECT step, "add.byte", "sum" FROM states WHERE pc = 0x10134
