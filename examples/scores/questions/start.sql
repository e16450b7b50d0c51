SELECT step, func, sp FROM states WHERE step < 4
