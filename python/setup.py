"""Installs the module with the shared library beside it: pip install --no-build-isolation --no-index ./python

The library is made of the repository's static one, which `tools/built karvelorn` proves and builds.
"""

import shutil
import sys
from pathlib import Path

from setuptools import Distribution, setup
from setuptools.command.build_py import build_py

REPOSITORY = Path(__file__).resolve().parent.parent


def library():
    """The shared library of the repository."""
    sys.path.insert(0, str(REPOSITORY / "tools"))
    from places import LIBRARY
    from sharing import built_shared
    if not LIBRARY.exists():
        sys.exit("karvelorn: the library isn't built: tools/built karvelorn")
    return built_shared()


class WithLibrary(build_py):
    """The module, and the library beside it."""

    def run(self):
        super().run()
        Path(self.build_lib).mkdir(parents=True, exist_ok=True)
        shutil.copy(library(), Path(self.build_lib, "libkarvelorn.so"))


class OfOnePlatform(Distribution):
    """The library is for one kind of machine, and so is what is made here."""

    def has_ext_modules(self):
        return True


setup(name="karvelorn", version=(REPOSITORY / "VERSION").read_text().strip(), description="The Systems Concepts Digital Synthesizer of 1978 in whole numbers, proved",
      py_modules=["karvelorn"], install_requires=["numpy"], python_requires=">=3.9", cmdclass={"build_py": WithLibrary}, distclass=OfOnePlatform)
