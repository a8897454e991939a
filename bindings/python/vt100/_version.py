"""The version of the package."""

#: The version of the crate whose behavior the library reproduces. In a package that was built for
#: distribution, the number of the port follows it, as in "0.18.1.post6".
__version__ = "0.18.1"
