"""The wheel: the package, with the library in it. `tools/package` fills the folder, and names by GEOCOM_GLIBC the oldest glibc that the
library needs, as 2_14, by GEOCOM_MACHINE the machine that it is for, as x86_64, by GEOCOM_HOMEPAGE the project's address, and by
GEOCOM_LICENCE the licences of all that is in it. The version is that of geocom/_version.py. The wheel is of no version of Python, but of
one machine. There is no source distribution: what is in the wheel is proved and built by the Rattle kit. The licence's expression is in
the field `License`: that of metadata 2.4 is refused by Debian's twine, which reads them up to 2.2."""

import os
import re
import sys
from pathlib import Path

if "sdist" in sys.argv or "GEOCOM_HOMEPAGE" not in os.environ:
    sys.exit("geocom has no source distribution: its library is proved and built by the Rattle kit; tools/package makes the wheel")

from setuptools import Distribution, setup
from wheel.bdist_wheel import bdist_wheel

HOMEPAGE = os.environ["GEOCOM_HOMEPAGE"]


class Wheel(bdist_wheel):
    """Any Python 3, without its ABI: the library is called by ctypes."""

    def get_tag(self):
        return "py3", "none", f"manylinux_{os.environ['GEOCOM_GLIBC']}_{os.environ['GEOCOM_MACHINE']}"


class Binary(Distribution):
    """One with a library in it, so that the wheel is of one platform."""

    def has_ext_modules(self):
        return True


setup(
    name="geocom",
    version=re.search(r'^__version__ = "(.*)"', Path("geocom/_version.py").read_text(), re.M)[1],
    description="Asks Leica total stations over GeoCOM, so that each answer is its own request's: proved",
    long_description=Path("README.md").read_text(encoding="utf-8"),
    long_description_content_type="text/markdown",
    author="the geocom authors",
    url=HOMEPAGE,
    project_urls={
        "Documentation": f"{HOMEPAGE}/blob/main/docs/LIBRARY.md",
        "Changelog": f"{HOMEPAGE}/blob/main/CHANGELOG.md",
        "Source": HOMEPAGE,
        "Issues": f"{HOMEPAGE}/issues",
    },
    license=os.environ["GEOCOM_LICENCE"],
    license_files=["LICENSE", "copyright"],
    keywords=["GeoCOM", "Leica", "total station", "surveying", "monitoring", "serial"],
    python_requires=">=3.9",
    extras_require={"serial": ["pyserial>=3.5"], "test": ["pytest>=7"]},
    packages=["geocom", "geocom.aio"],
    package_data={"geocom": ["py.typed", "libgeocom.so"]},
    classifiers=[
        "Development Status :: 4 - Beta",
        "Framework :: AsyncIO",
        "Intended Audience :: Science/Research",
        "License :: OSI Approved :: MIT License",
        "Operating System :: POSIX :: Linux",
        "Programming Language :: Python :: 3",
        "Programming Language :: Python :: 3 :: Only",
        "Topic :: Scientific/Engineering :: GIS",
        "Topic :: System :: Hardware",
        "Typing :: Typed",
    ],
    distclass=Binary,
    cmdclass={"bdist_wheel": Wheel},
    zip_safe=False,
)
