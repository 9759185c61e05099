"""Whether what is kept in files may be taken, and its checksums. Nobody but whoever calls or root may have written it,
and no link is followed."""
import contextlib
import hashlib
import os
import stat

BY_OTHERS = stat.S_IWGRP | stat.S_IWOTH


class Unsafe(OSError):
    """Others could have written to a file or folder that is kept."""


def is_own(has):
    """Whether a file or folder is the caller's or root's, and nobody else can write to it."""
    return has.st_uid in (os.getuid(), 0) and not has.st_mode & BY_OTHERS


def is_safe(folder):
    """Whether it is a folder, no link, that nobody but the caller or root can write to."""
    try:
        has = os.lstat(folder)
    except OSError:
        return False
    return stat.S_ISDIR(has.st_mode) and is_own(has)


def makes_safe(folder):
    """Makes a folder where none is, or nothing is in it; gives whether it is safe. One that others could write to,
    and that isn't empty, stays as it is.
    """
    with contextlib.suppress(OSError):
        os.makedirs(folder, mode=0o755, exist_ok=True)
    with contextlib.suppress(OSError):
        has = os.lstat(folder)
        is_folder = stat.S_ISDIR(has.st_mode)
        if is_folder and has.st_uid == os.getuid() and has.st_mode & BY_OTHERS and not os.listdir(folder):
            os.chmod(folder, 0o755)
            # (from here on nobody else can write to it, but may have before)
            return is_safe(folder) and not os.listdir(folder)
    return is_safe(folder)


def opened(path):
    """Opens a file that is kept, to read it."""
    it = os.open(path, os.O_RDONLY | os.O_NOFOLLOW | os.O_NONBLOCK | os.O_CLOEXEC)
    has = os.fstat(it)
    if not stat.S_ISREG(has.st_mode) or not is_own(has):
        os.close(it)
        raise Unsafe(f"others could write to {path}")
    return os.fdopen(it, "rb")


def checksum(path):
    """Gives the checksum of a file, or of a folder with all that is in it, by names and contents."""
    if not stat.S_ISDIR(os.lstat(path).st_mode):
        with opened(path) as it:
            return hashlib.sha256(it.read()).hexdigest()
    if not is_safe(path):
        raise Unsafe(f"others could write to {path}")
    sum_ = hashlib.sha256()
    for name in sorted(os.listdir(os.fsencode(path))):
        sum_.update(name + b"\0" + checksum(os.path.join(os.fsencode(path), name)).encode())
    return sum_.hexdigest()
