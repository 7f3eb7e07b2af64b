"""Corpora: a field is a line, its name and its value parted by a TAB; an empty line ends a list."""


def read_lists(path):
    """Returns the lists of a corpus, each of pairs of bytes."""
    lists, fields = [], []
    for line in path.read_bytes().split(b"\n")[:-1]:
        if b"\t" in line:
            fields.append(tuple(line.split(b"\t", 1)))
        else:
            lists.append(fields)
            fields = []
    return lists
