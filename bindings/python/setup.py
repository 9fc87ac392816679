"""The build beside pyproject.toml: the extension has assembly text, and shows only its beginning."""
import sys

from setuptools import setup
from setuptools.command.build_ext import build_ext


class BuildExtension(build_ext):
    """A build whose C compiler takes assembly text, too."""

    def build_extensions(self):
        if self.compiler.compiler_type == "msvc":
            raise SystemExit("yulimosar: the assembly text for Windows is for GNU tools: build with --compiler=mingw32")
        self.compiler.src_extensions = [*self.compiler.src_extensions, ".S"]
        for extension in self.extensions:
            extension.extra_compile_args.append("-Wa,-Isrc/assembly")
            if sys.platform == "darwin":
                extension.extra_link_args.append("-Wl,-exported_symbol,_PyInit__noise")
            elif self.compiler.compiler_type == "unix":
                extension.extra_link_args.append("-Wl,--version-script=src/exports.map")
        super().build_extensions()


setup(cmdclass={"build_ext": BuildExtension}, cffi_modules=["noise_build.py:ffi"])
