"""The rules of the queue a second time, and the means to compare the built programs with them."""
