SELECT step, FUNC, a0 FROM states WHERE pc = 0x10134 AND step < 300
