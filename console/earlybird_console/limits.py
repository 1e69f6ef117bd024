"""The limits of what the console does and keeps for others. Those of requests as such are the server's: web/earlybird_web/limits.py.
docs/CONSOLE.md has both."""

# readers of events; bytes that one may leave unread, and that the kernel is asked to hold at most for it
READERS = 200
UNREAD_EVENTS = 1 << 20
KERNEL_EVENTS = 1 << 16
# lines of one body that are taken, and refused ones that an answer names
LINES = 100_000
REFUSALS = 100
# matches in an answer, bytes of their messages, bars, and messages of an export
MATCHES = 500
ANSWER = 1 << 22
BARS = 300
EXPORTED = 100_000
# names of sources, and how many of them the page is told
SOURCES = 1000
SOURCES_TOLD = 50
# queries that wait for the index
WAITING = 256
# the bytes of messages from which an answer is large (large ones are made one after the other), and counts that are made at once
LARGE = 1 << 18
COUNTING = 2
# seconds that the marks of one answer take, where no other waits to be made
MARKING = 0.25
# how often a word may stand in the phrases and windows of a query: the index walks its places for each
REPEATED = 8
# watches, the longest time of a threshold in seconds
WATCHES = 100
LONGEST_SPAN = 3600
