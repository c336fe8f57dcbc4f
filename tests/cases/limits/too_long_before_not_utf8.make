"""One byte too many, and the bytes aren't UTF-8: the first error is reported."""


def scenario():
    return 1048577 * b'\xff'
