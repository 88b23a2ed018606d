"""A plain reading of the language's rules, from docs/ alone: no line of it is taken from the crates."""
