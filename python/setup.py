"""The wheel of the package, with the library that `./build` made inside. All else that a build needs is said in pyproject.toml.

Nothing is left in this folder, so that no wheel can get what an earlier build put there.
"""

from __future__ import annotations

import shutil
from pathlib import Path
from tempfile import TemporaryDirectory

from setuptools import Distribution, setup
from setuptools.command.build_py import build_py
from setuptools.errors import FileError

CHECKOUT = Path(__file__).resolve().parent.parent
LIBRARY = CHECKOUT / "target" / "lib" / "libdesk.so"


class OfOnePlatform(Distribution):
    def has_ext_modules(self) -> bool:
        return True


class WithLibrary(build_py):
    def run(self) -> None:
        if getattr(self, "editable_mode", False):  # the package stays in the checkout, and finds the library there
            return super().run()
        expect_current_library()
        super().run()
        shutil.copyfile(LIBRARY, Path(self.build_lib, "reserving_desk", LIBRARY.name))


def expect_current_library() -> None:
    if not LIBRARY.is_file():
        raise FileError(f"there is no library {LIBRARY}: run ./build first, in the checkout of the reserving desk")
    sources = [CHECKOUT / "crates.txt", *CHECKOUT.glob("crates/*/src/**/*"), *CHECKOUT.glob("crates/*/specs/**/*")]
    newer = [path for path in sources if path.is_file() and path.stat().st_mtime > LIBRARY.stat().st_mtime]
    if newer:
        raise FileError(f"the library {LIBRARY} is older than {newer[0]}: run ./build first, in the checkout of the reserving desk")


def commands() -> dict[str, type]:
    """A wheel is made by setuptools from 70.1 on, and before that by the package wheel, which may still have to be installed."""
    try:
        from setuptools.command.bdist_wheel import bdist_wheel
    except ImportError:
        try:
            from wheel.bdist_wheel import bdist_wheel
        except ImportError:
            return {"build_py": WithLibrary}

    class ForAnyPython(bdist_wheel):
        """The library calls nothing of Python, and of C only memcpy and memset, of no version."""

        def get_tag(self) -> tuple[str, str, str]:
            return "py3", "none", "linux_x86_64"

    return {"build_py": WithLibrary, "bdist_wheel": ForAnyPython}


with TemporaryDirectory() as folder:
    setup(
        distclass=OfOnePlatform,
        cmdclass=commands(),
        options={"build": {"build_base": folder}, "egg_info": {"egg_base": folder}},
    )
