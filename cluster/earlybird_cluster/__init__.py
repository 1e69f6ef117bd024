"""Earlybird on several machines: a log in Redis streams, index programs for each partition, and a router that blends the answers.

What holds and by whose word is said in docs/CLUSTER.md.
"""
__all__ = ["Answer", "LOST", "OtherInput", "Router", "Told"]


def __getattr__(name):
    """The names above, of the router: it needs Redis's module, and the words of the command don't."""
    if name not in __all__:
        raise AttributeError("module %r has no attribute %r" % (__name__, name))
    from . import router
    return getattr(router, name)
