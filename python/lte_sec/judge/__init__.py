"""The judge of keys, and of a whole trace: lawful histories, KeNB, NH and KeNB*, handovers, readings, and blames that
are asked of the proved program."""
