"""The limits of requests: of all that others send to a server, and of what is kept for them. docs/CONSOLE.md has them."""

# bytes of a head, of a body, and of a short body
HEAD = 1 << 14
BODY = 1 << 23
# connections that are open at once
CONNECTIONS = 512
# seconds that one of them has to have waited to be ended for another, and how many more are open until one has
GRACE = 0.25
SPARE = 256
# seconds for a head; for a body and for an answer these and one more for each RATE bytes
PATIENCE = 15
RATE = 1 << 14
# seconds without a request
IDLE = 60
# bytes that all connections together may leave unread
UNREAD = 1 << 26
# bytes that the kernel is asked to hold at most for a connection
KERNEL = 1 << 17
# bytes of a refused body that are read, so that who sends it before reading gets the answer
PASSED = 1 << 25
