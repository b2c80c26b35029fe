"""Not proved: what is proved is the verdict about the ported text; the rest is tested at each build, by running it.

The driver behind `commute++`, a command with g++'s words. The way of a program:

    words      g++'s words and those of the driver; what is left to g++ alone
    command    the whole way; each step may end it with one line, and the user's own binary stays
    shaping    the ported text, in the shape that is analysed
    different  loops over different objects, as calls of operations of these
    lengths    a run that says how long arrays have to be; the first check
    prints     the prints and exit codes of the user's program, as C++ for the built one
    building   C++ of the marked text by native/translator, compiled
    judging    the built program against the user's own: bytes and exit code, and time
    runs       programs run within limits
    findings   the loops and recursions: what runs in parallel, and what stands in the others' way
    shares     how much of the run lies in each
    ranges     where a loop or function of the user's text ends
    lines      the report as text; page: the report as a page, with style; reports: what of these is asked for
    language   the same report of a text of the language itself
    remarks    what is said, as compilers say it
"""
