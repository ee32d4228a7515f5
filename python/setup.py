"""What pyproject.toml can't say: a wheel with a shared object beside the package is for this kind of machine alone, and no py3-none-any."""

from pathlib import Path

from setuptools import Distribution, setup


class WithObject(Distribution):
    def has_ext_modules(self):
        return any(Path(__file__).with_name("plate_track").glob("libplate_track.so.*"))


setup(distclass=WithObject)
