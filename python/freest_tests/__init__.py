"""The tests of freest_tools that python/check runs. `tried()` of each module returns a list of faults, and what was
tried in some words."""


def differ(name, found, wanted):
    """Returns a fault in a list where these differ."""
    return [] if found == wanted else [f"{name}: {found!r} in place of {wanted!r}"]
