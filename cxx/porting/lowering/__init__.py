"""Not proved (README.md). From the typed tree to the middle form.

    shapes       which class, field or array each type and variable of C++ becomes
    context      what a body that is being lowered knows: its method, its names, its effects so far
    numbers      arithmetic with C++'s widths
    naturals     which values are never below zero
    values       expressions: a value without effects, and before it the statements that do what the expression does
    places       what can be assigned to; references
    cursors      pointers that walk over items
    letters      the letters of literal strings
    calls        calls, arguments, results
    objects      making and copying objects, arrays and vectors
    vectors      what vectors can do
    steps        statements
    program      functions, virtual calls, the whole
"""
