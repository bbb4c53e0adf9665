"""Archives of files, the same bytes for the same files: tar with gzip, and Debian's package."""
import gzip
import hashlib
import io
import tarfile

CONTROL = """\
Package: saber
Version: {version}
Architecture: {machine}
Maintainer: the maintainers of saber <saber@localhost>
Installed-Size: {size}
Depends: libc6 (>= {needs}), python3 (>= 3.9)
Section: utils
Priority: optional
Description: windowed queries over streams of whole numbers
 It answers queries in a small SQL (after CQL) over CSV files and pipes: counts, sums, matches by
 window, one line for each window and group. It is one program, without server or state on disk.
"""


def entry(path, when, executable=True):
    """The head of a file or folder that belongs to root."""
    head = tarfile.TarInfo(path)
    head.mtime, head.mode, head.uname, head.gname = when, 0o755 if executable else 0o644, "root", "root"
    return head


def folders_of(paths):
    """Each folder that one of the paths lies in, those around others first."""
    return sorted({path[:place] for path in paths for place, letter in enumerate(path) if letter == "/"} - {"."})


def tar(files, when, folders=True):
    """The bytes of a tar with gzip of files: their paths, bytes, and whether they are programs."""
    raw = io.BytesIO()
    with tarfile.open(fileobj=raw, mode="w", format=tarfile.USTAR_FORMAT) as archive:
        for path in folders_of([path for path, _, _ in files]) if folders else []:
            head = entry(path, when)
            head.type = tarfile.DIRTYPE
            archive.addfile(head)
        for path, data, executable in files:
            head = entry(path, when, executable)
            head.size = len(data)
            archive.addfile(head, io.BytesIO(data))
    return gzip.compress(raw.getvalue(), 9, mtime=0)


def ar(members, when):
    """The bytes of an `ar` of members, pairs of a name and bytes."""
    parts = [b"!<arch>\n"]
    for name, data in members:
        parts += [f"{name:<16}{when:<12}{0:<6}{0:<6}{'100644':<8}{len(data):<10}`\n".encode(), data, b"\n" * (len(data) % 2)]
    return b"".join(parts)


def deb(files, version, machine, needs, when):
    """The bytes of Debian's package of files, below /usr."""
    placed = [(f"./usr/{path}", data, executable) for path, data, executable in files]
    size = sum(-(-len(data) // 1024) for _, data, _ in files)
    control = CONTROL.format(version=version, machine=machine, size=size, needs=needs)
    sums = "".join(f"{hashlib.md5(data).hexdigest()}  {path[2:]}\n" for path, data, _ in placed)
    told = [("./control", control.encode(), False), ("./md5sums", sums.encode(), False)]
    return ar([("debian-binary", b"2.0\n"), ("control.tar.gz", tar(told, when, folders=False)), ("data.tar.gz", tar(placed, when))], when)
