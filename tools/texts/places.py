"""Files as the program reads them: by place, so that a pipe or a folder is none."""
import os

PIECE = 1 << 16


def read_by_place(path, most):
    """At most so many bytes of a file. Raises OSError where the program has a read fault."""
    handle = os.open(path, os.O_RDONLY | os.O_NONBLOCK | os.O_CLOEXEC)
    try:
        data = b""
        while len(data) < most:
            piece = os.pread(handle, min(PIECE, most - len(data)), len(data))
            if not piece:
                break
            data += piece
        return data
    finally:
        os.close(handle)
