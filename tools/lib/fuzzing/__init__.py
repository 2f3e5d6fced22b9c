"""The parts of tools/fuzz: the commands, the inputs, what is asked of an answer, and what compilers say."""
