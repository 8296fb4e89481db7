"""Builds the package over librice.a, which `make library` leaves above this folder."""
import os
import re
import subprocess
import sys

from setuptools import Distribution, setup

HERE = os.path.dirname(os.path.abspath(__file__))
sys.path.insert(0, HERE)

import rice_build

if not os.path.exists(rice_build.LIBRARY):
    raise SystemExit(f"there is no {rice_build.LIBRARY}: it is built by make library")
with open(rice_build.HEADER) as file:
    version = re.search(r'#define RICE_VERSION_TEXT "(.*)"', file.read())[1]


class Wheel(Distribution().get_command_class("bdist_wheel")):
    """A wheel whose tag has the oldest glibc with all that the extension takes of it. (No tag is older than 2.5.)"""

    def get_tag(self):
        python, abi, platform = super().get_tag()
        (extension,) = self.get_finalized_command("build_ext").get_outputs()
        symbols = subprocess.run(["objdump", "-T", extension], check=True, capture_output=True, text=True).stdout
        minor = max(5, *map(int, re.findall(r"\bGLIBC_2\.(\d+)", symbols)))
        return python, abi, platform.replace("linux_", f"manylinux_2_{minor}_")


# One wheel for all versions of Python: the extension keeps to the interface that they share.
setup(
    version=version,
    cffi_modules=["rice_build.py:ffi"],
    cmdclass={"bdist_wheel": Wheel},
    options={"bdist_wheel": {"py_limited_api": "cp38"}},
)
