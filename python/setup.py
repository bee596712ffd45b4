"""The wheel of jk holds machine code, so it is named for its platform, and for every Python 3. The page of `jk.view` goes
into it from the folder viewer/ beside this one, where that is there."""
import os
import re
import shutil
import sys

from setuptools import Distribution, setup
from setuptools.command.build_py import build_py

try:
    from wheel.bdist_wheel import bdist_wheel
except ImportError:
    from setuptools.command.bdist_wheel import bdist_wheel

HERE = os.path.dirname(os.path.abspath(__file__))
LIBRARY = os.path.join(HERE, "src", "jk", "libjk.so.0")
ABOVE = os.path.dirname(HERE)
# The page's module is built beside it, or stands in the release.
MODULES = [os.path.join(ABOVE, *it, "viewer", "jk.wasm") for it in ((), ("dist", "x86_64-linux"))]


def platform_of(library, usual):
    """The platform that a shared object runs on: each Linux whose glibc has the calls that it asks for (PEP 600), where it
    needs no other library."""
    with open(library, "rb") as file:
        text = file.read()
    needed = set(re.findall(rb"[\w+-]+\.so\.\d+", text)) - {b"libjk.so.0"}
    versions = [int(it) for it in re.findall(rb"GLIBC_2\.(\d+)", text)]
    if not usual.startswith("linux_") or needed != {b"libc.so.6"} or not versions:
        return usual
    # Older ones than those of manylinux2014 no installer asks for.
    return f"manylinux_2_{max(17, *versions)}_{usual[len('linux_'):]}"


class WithPage(build_py):
    def run(self):
        super().run()
        page = os.path.join(self.build_lib, "jk", "viewer")
        if os.path.isdir(os.path.join(ABOVE, "viewer")):
            shutil.copytree(os.path.join(ABOVE, "viewer"), page, dirs_exist_ok=True)
            for module in [it for it in MODULES if os.path.exists(it)][:1]:
                shutil.copy(module, page)


class PlatformWheel(bdist_wheel):
    def finalize_options(self):
        super().finalize_options()
        self.root_is_pure = False

    def get_tag(self):
        return "py3", "none", platform_of(LIBRARY, super().get_tag()[2])


class BinaryDistribution(Distribution):
    def has_ext_modules(self):
        return True


if not os.path.exists(LIBRARY):
    sys.exit(f"{LIBRARY} isn't there: tools/build-c of the repository makes it")
setup(distclass=BinaryDistribution, cmdclass={"bdist_wheel": PlatformWheel, "build_py": WithPage})
