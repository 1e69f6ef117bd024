"""Why a call did nothing: each is a `Refused`, by the name that the program prints.

    >>> from earlybird import Index, refusals
    >>> try:
    ...     Index().search("(train")
    ... except refusals.BadQuery as why:
    ...     why.column
    7
"""
from earlybird._refusals import (
    BadDocument,
    BadHandle,
    BadImage,
    BadJson,
    BadLine,
    BadNumber,
    BadQuery,
    BadReading,
    BadSetting,
    BadText,
    Full,
    LongLine,
    NoMemory,
    NoWatch,
    QueryTooDeep,
    QueryTooLarge,
    Refused,
    TooLong,
    WatchesFull,
    WatchTaken,
)

__all__ = [
    "BadDocument", "BadHandle", "BadImage", "BadJson", "BadLine", "BadNumber", "BadQuery", "BadReading", "BadSetting", "BadText", "Full", "LongLine",
    "NoMemory", "NoWatch", "QueryTooDeep", "QueryTooLarge", "Refused", "TooLong", "WatchTaken", "WatchesFull",
]
