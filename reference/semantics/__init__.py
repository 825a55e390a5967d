"""The language as Python computes it: a file for each subject, a function for each definition. Nothing of it is proved."""
