"""Small wrong edits of definitions and code, each tried on the checker: tools/mutate runs it, docs/MUTATIONS.md explains it."""
