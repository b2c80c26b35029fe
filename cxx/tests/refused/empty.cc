// Nothing here.
// refused: the program has no main; name the file that has it, too
