int twice(int x) { return 2 * x; }
// refused: the program has no main; name the file that has it, too
