"""Not proved (../README.md). What the search for a shape that commutes finds, counted over programs whose parallel phases are known.

    known    the list of phases, and of the lines that make the data, as `tests/phases.md` has it
    steps    steps of a program that run marked, by an instrumented C++ of its text
    table    both over the programs of `tests/programs`, and the runs of the rewritten texts by several workers
"""
