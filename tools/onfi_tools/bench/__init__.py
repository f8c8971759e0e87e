"""What tools/bench measures: a module for each word, with its options and what it does."""
