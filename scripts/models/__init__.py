"""Independent models of what `avf` does with files and words, for scripts/search."""
