# The parts of tools/film: cutting a film, joining its outputs, and running it.
