"""A comment of 1,048,576 bytes, which is a document without keys."""


def scenario():
    return 16384 * (63 * '#' + '\n')
