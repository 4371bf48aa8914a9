# Which crate is in which layer, and which arrows follow from others.
from layering.listed import ListError


def layers_of(crates):
    """Each crate's layer: 0 where it stands on none, or else one above the highest that it stands on."""
    under = {crate.name: crate.stands_on for crate in crates}
    layer = {}

    def visit(name, path):
        if name in path:
            raise ListError(f"the crates stand on each other in a ring through {name}")
        if name not in layer:
            layer[name] = 1 + max((visit(other, path + [name]) for other in under[name]), default=-1)
        return layer[name]

    for name in under:
        visit(name, [])
    return layer


def arrows_of(crates):
    """For each crate those that it stands on and that nothing else it stands on stands on already."""
    under = {crate.name: crate.stands_on for crate in crates}
    reach = {}  # all that a crate stands on, at any depth
    for name in sorted(under, key=layers_of(crates).get):
        reach[name] = set(under[name]).union(*(reach[other] for other in under[name]))
    return {name: [n for n in names if not any(n in reach[other] for other in names)] for name, names in under.items()}
