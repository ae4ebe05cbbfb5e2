"""The commands of bqctl."""
