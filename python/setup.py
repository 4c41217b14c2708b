"""What pyproject.toml cannot say: the version is the repository's, and a wheel with the shared library inside is for one platform."""
import os

from setuptools import Extension, setup
from setuptools.dist import Distribution
from wheel.bdist_wheel import bdist_wheel


class PlatformDistribution(Distribution):
    """A distribution that is not pure Python."""

    def has_ext_modules(self):
        return True


class AnyPython(bdist_wheel):
    """A wheel for any Python 3 on this platform: the library is found at run time, and the module in C uses the limited
    API. An interpreter that cannot load the module does without it."""

    def get_tag(self):
        return "py3", "none", super().get_tag()[2]


# Without a compiler, or Python's headers, the wheel has no such module.
packing = Extension(
    "lomdeqash._packing",
    ["lomdeqash/_packing.c"],
    py_limited_api=True,
    optional=True,
    extra_compile_args=["-O2", "-g0"],
)

setup(
    version=os.environ.get("LOMDEQASH_VERSION", "0"),
    distclass=PlatformDistribution,
    cmdclass={"bdist_wheel": AnyPython},
    ext_modules=[packing],
)
