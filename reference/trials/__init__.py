"""What reference/fuzz, reference/faults, reference/mutants and reference/check share."""
