# SPDX-License-Identifier: MIT OR Apache-2.0
"""Puts the library into the package: the one that WKB_BUILT names, or else one that `make` builds here, in `native` of
the source package, or else the sources beside this package."""
import gzip
import os
import pathlib
import re
import shutil
import struct
import subprocess
import sys
import tarfile

from setuptools import Distribution, setup
from setuptools.command.build_py import build_py
from setuptools.command.sdist import sdist

try:
    from setuptools.command.bdist_wheel import bdist_wheel
except ImportError:
    from wheel.bdist_wheel import bdist_wheel

HERE = pathlib.Path(__file__).resolve().parent
# Linux's processors by their numbers in the head of an ELF file.
MACHINES = {62: "x86_64", 183: "aarch64"}
# The tags of wheels by the C library that ours asks for: manylinux_2_17 is any Linux with glibc 2.17 or later,
# musllinux_1_1 any with musl 1.1 or later.
TAGS = {"libc.so.6": "manylinux_2_17_{0}.manylinux2014_{0}", "libc.so": "musllinux_1_1_{0}"}


def of_any_linux(library, machine):
    """The tag where the library asks for one of these and no other, and for nothing newer; or None."""
    try:
        command = ["readelf", "-dVW", library]
        told = subprocess.run(command, check=True, stdout=subprocess.PIPE, encoding="utf-8").stdout
    except (OSError, subprocess.CalledProcessError):
        return None
    needed = [re.sub(r"musl-.*\.so\.1$", "so", it) for it in re.findall(r"\(NEEDED\).*\[(.*)\]", told)]
    versions = re.findall(r"Name: (\S+)", told[told.find("Version needs section"):])
    # The second has no versions, unlike that of Android, which has the same name.
    of_glibc = all(re.fullmatch(r"GLIBC_2\.(\d|1[0-7])(\.\d+)*", it) for it in versions)
    if needed == ["libc.so.6"] and of_glibc or needed == ["libc.so"] and not versions:
        return TAGS[needed[0]].format(machine)
    return None


def platform(library, own):
    """The tag of the systems that the library runs on; that of this system is `own`."""
    head, here = (pathlib.Path(it).read_bytes()[:4096] for it in (library, sys.executable))
    if head.startswith(b"MZ"):
        begin, = struct.unpack_from("<I", head, 60)
        tag = "win_amd64" if head[begin : begin + 6] == b"PE\0\0\x64\x86" else None
    elif head.startswith(b"\xcf\xfa\xed\xfe\x0c\0\0\1"):
        tag = "macosx_11_0_arm64"
    else:
        machine = MACHINES.get(struct.unpack_from("<18xH", head)[0]) if head.startswith(b"\x7fELF") else None
        tag = of_any_linux(library, machine) if machine else None
    if tag is None and (head[:8], head[18:20]) != (here[:8], here[18:20]):
        raise SystemExit(f"{library} is for another system, and makes no wheel here")
    return tag or own


class Build(build_py):
    """Copies the library beside the Python code of the package."""

    def run(self):
        super().run()
        native = next(it for it in (HERE / "native", HERE.parent / "c", HERE.parent) if it.exists())
        library, build = os.environ.get("WKB_BUILT"), pathlib.Path(self.build_lib).resolve().parent / "native"
        if not library:
            # By relative paths, since make takes no space, which the folder of all this may have in its name.
            own = [f"BUILD={os.path.relpath(build, native)}", f"PACKAGE={os.path.relpath(HERE, native)}"]
            subprocess.run(["make", "-s", "-C", os.fspath(native), *own, "inside"], check=True)
            library, = (build / "package" / "porchsorrel_wkb").glob("libwkb.*")
        to = HERE / "src" if getattr(self, "editable_mode", False) else pathlib.Path(self.build_lib)
        shutil.copy(library, to / "porchsorrel_wkb")
        self.distribution.wkb_library = library


class Binary(Distribution):
    """What is for one system."""

    def has_ext_modules(self):
        return True


class Sources(sdist):
    """The package in sources, with the same bytes each time, named as PEP 625 says, which older setuptools don't do."""

    def make_archive(self, base_name, format, root_dir=None, base_dir=None, owner=None, group=None):
        if format != "gztar":
            return super().make_archive(base_name, format, root_dir, base_dir, owner, group)
        name = normalized(f"{base_name}.tar.gz")
        with open(name, "wb") as file, gzip.GzipFile("", "wb", fileobj=file, mtime=0) as out:
            with tarfile.open(fileobj=out, mode="w", format=tarfile.PAX_FORMAT) as archive:
                for path in sorted(it for it in pathlib.Path(root_dir or ".", base_dir).rglob("*") if it.is_file()):
                    archive.add(path, normalized(os.fspath(path.relative_to(root_dir or "."))), filter=plain)
        return name


def normalized(path):
    """A path in which the package's name has no hyphen."""
    return path.replace("porchsorrel-wkb-", "porchsorrel_wkb-")


def plain(member):
    """A member of an archive without who made it, and when."""
    member.mtime = member.uid = member.gid = 0
    member.uname = member.gname = ""
    member.mode = 0o755 if member.mode & 0o100 else 0o644
    return member


class Wheel(bdist_wheel):
    """A wheel for any Python, on each system that the library runs on."""

    def get_tag(self):
        *_, own = super().get_tag()
        built = getattr(self.distribution, "wkb_library", None)
        return "py3", "none", platform(built, own) if built else own


setup(distclass=Binary, cmdclass={"build_py": Build, "bdist_wheel": Wheel, "sdist": Sources})
