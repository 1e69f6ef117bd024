"""What lines of logs and queries over them say, for the programs in Python that show messages to people: times, messages, words, marks."""
