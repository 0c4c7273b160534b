"""Puts docs/LINUX.md beside on_linux where the tools are installed: it compares kernels with what that page says."""

import os
import shutil

from setuptools import setup
from setuptools.command.build_py import build_py

PAGE = os.path.join(os.path.dirname(os.path.abspath(__file__)), "..", "docs", "LINUX.md")


class BuildWithPage(build_py):
    """Builds the packages, and adds the page."""

    def run(self) -> None:
        super().run()
        shutil.copyfile(PAGE, os.path.join(self.build_lib, "on_linux", "LINUX.md"))


setup(cmdclass={"build_py": BuildWithPage})
