# The crates and how they stand on each other: crates.txt read, laid out in layers, and drawn.
