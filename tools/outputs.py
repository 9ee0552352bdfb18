"""Files that commands write: there whole or not at all, never over an input, and no older one left as if it were new.

An output behind a symbolic link is written to the file that the link names. What stood there before a failed command is set
aside under another name (bell.older.wav) and so is neither lost nor taken for the new result.
"""

import os
import stat
import tempfile

from command_line import Ending, Status

MODE, WRITABLE = 0o666, 0o222


def same_file(one, other):
    """Whether two paths name one file."""
    try:
        return os.path.samefile(one, other)
    except OSError:
        return os.path.realpath(one) == os.path.realpath(other)


def destination(path, inputs=()):
    """The file that an output is written to. Refused: one that is an input, and what exists and is no regular file."""
    for given in inputs:
        if same_file(path, given):
            raise Ending(f"{path} is an input and would be written over: name another output", Status.MISUSED)
    behind = os.path.realpath(path)
    try:
        kind = os.stat(behind).st_mode
    except FileNotFoundError:
        return behind
    except OSError as error:
        raise Ending(f"cannot write {path}: {error.strerror}", Status.UNWRITTEN) from None
    if not stat.S_ISREG(kind):
        raise Ending(f"{path} is {'a folder' if stat.S_ISDIR(kind) else 'no regular file'}: nothing is written there", Status.MISUSED)
    if not kind & WRITABLE or not os.access(behind, os.W_OK):
        raise Ending(f"cannot write {path}: it is write-protected", Status.UNWRITTEN)
    return behind


def temporary_beside(path, data):
    """A file with these bytes in the folder of a path, with the rights that a file there has or would have."""
    handle, name = tempfile.mkstemp(dir=os.path.dirname(path), prefix=".karvelorn-")
    try:
        with os.fdopen(handle, "wb") as file:
            file.write(data)
            file.flush()
            os.fsync(file.fileno())  # a disk that is full says so now
        os.chmod(name, stat.S_IMODE(os.stat(path).st_mode) if os.path.exists(path) else MODE & ~umask())
    except BaseException:
        os.unlink(name)
        raise
    return name


def umask():
    """The rights that new files don't get."""
    kept = os.umask(0)
    os.umask(kept)
    return kept


def write_whole(contents, inputs=()):
    """Files, by path and bytes, that are there whole or not at all."""
    places = {path: destination(path, inputs) for path in contents}
    made, path = {}, None
    try:
        for path, data in contents.items():
            made[path] = temporary_beside(places[path], data)
        for path in contents:
            os.replace(made[path], places[path])
            del made[path]
    except OSError as error:
        raise Ending(f"cannot write {path}: {error.strerror}", Status.UNWRITTEN) from None
    finally:
        for left in made.values():
            os.unlink(left)


# Older files

def older_names(path):
    """Names for an older file: NAME.older.EXT, then NAME.older-2.EXT and so on."""
    base, extension = os.path.splitext(path)
    return (f"{base}.older{'' if i == 1 else f'-{i}'}{extension}" for i in range(1, 10000))


def renamed(path, name):
    """Gives a file another name, unless that is taken; answers whether it has it now."""
    try:
        os.link(path, name)  # fails where the name is taken, also by somebody at the same time
    except FileExistsError:
        return False
    except OSError:  # a disk without hard links
        if os.path.lexists(name):
            return False
        os.rename(path, name)
    else:
        os.unlink(path)
    return True


def set_aside(path):
    """Gives an older file another name and answers that name; None where there is no such file."""
    behind = os.path.realpath(path)
    if not os.path.isfile(behind):
        return None
    try:
        return next(name for name in older_names(behind) if renamed(behind, name))
    except FileNotFoundError:
        return None  # another run has set it aside
    except OSError as error:
        raise Ending(f"{path} is older and can't be set aside ({error.strerror}): don't take it for this file's", Status.UNWRITTEN) from None


def made_here(path):
    """Whether a sound or picture is one that `hear` made, so that it can be made again: sounds of 20-bit words times 16, our pictures."""
    try:
        with open(path, "rb") as file:
            data = file.read(1 << 20)
    except OSError:
        return False
    if data.startswith(b"\x89PNG"):
        return b"Matplotlib" in data[:1000]
    ours = data[:4] == b"RIFF" and data[8:20] == b"WAVEfmt " + (16).to_bytes(4, "little") and data[34:40] == b"\x18\x00data"
    return ours and not any(low & 15 for low in data[44::3])
