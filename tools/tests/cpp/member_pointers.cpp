struct M { int M::*field; void (M::*function)(int); };
