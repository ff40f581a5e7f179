"""A plain reader of all that `jvm` is given, and inputs to compare the two by (tools/damaged.py).

The reader is slow and short, and written from the JVMS, from Jasmin, and from the limits and codes of this machine (docs/CODES.md,
docs/DECISIONS.md), with no line of the program's own code. What it refuses it refuses by the code and at the place that `jvm` is to report.

    texts.py         texts in Jasmin's syntax, line by line
    assembling.py    the class file of a text
    class_files.py   class files, with opcodes.py for their code
    loading.py       the rules of a program
    journals.py      journals of runs
    programs.py      what is reported of a text, a class file, a journal, or a program
    names.py, classes.py, refusals.py    what all of them speak of

And what it is compared by:

    rows.py          the rows of examples/answers.txt
    inputs.py        the texts, class files and journals of examples/
    damage.py        what is done to them, with class_parts.py and line_parts.py for what keeps them well-formed a step further
    wanted.py        what `jvm` is to answer then
    worked.py        changes whose answers were worked out by hand
    large.py         large inputs

    python3 tools/plain             compares the reader with the rows of examples/answers.txt
    python3 tools/plain FILE..      tells what it says of some files, as one program
"""
