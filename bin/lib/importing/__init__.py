"""A plan from a layer of polygons, and a GeoPackage from a plan: the parts of bin/cadimport and bin/cadgpkg.

Lengths are millimetres, and areas of faces twice their square millimetres, unless a name or a docstring says
otherwise. From the first rounding on all positions are whole millimetres, and all tests on them are exact.
"""
