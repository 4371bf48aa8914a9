# The parts of tools/look: records, their text form, a program's answers, and two ways to see them.
