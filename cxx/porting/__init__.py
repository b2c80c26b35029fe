"""Not proved: what is proved is the verdict about the ported text; the link to the user's C++ is tested each time.

Ports serial C++ to the language of `commute`, and tells the verdicts in the user's own lines. The way of a program:

    clang      the files as one unit, by clang's own tree (JSON)
    reading    that tree to a typed tree of ours (`tree`, types in `types`); what isn't known is refused by its place
    objectarrays, references   what of the typed tree is changed before: arrays of new objects, references that are values
    lowering   the typed tree to the middle form (`form`): classes, methods, statements that do one thing each
    finishing  the middle form to what the language has: no jumps, no results of operations, no writes to other objects
    text       the finished form to a text, with a map of its lines to the user's
    check      g++'s program and the run of the ported text: the same bytes and exit code
    contexts   which loops are run by nothing but what runs in parallel
    told       plan, pairs, refusals and traps in the user's lines and names
"""
