SELECT step, func, a0 FROM states WHERE step >= 996
