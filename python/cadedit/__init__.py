"""A cadastral map that is opened once, and then edited and asked call by call, with the answers of `cadedit`.

    from cadedit import Map, Refused

    with Map.open('block.plan') as block:
        block.merge(101, 102)
        print(block.areas(), block.wkt(101))
        block.undo()

Positions are whole millimetres, x to the east and y to the north. A face is a parcel's number, or 0 for the outside.
docs/FORMATS.md of the repository says of each record what it asks for and how it is answered, docs/EMBED.md what is
proved of that and what isn't. A map is used on the thread that opened it.
"""
from cadedit._answers import Area, Position, Ring
from cadedit._faults import CadeditError, NoLibrary, PlanFault, Refused, SyntaxFault, ThreadFault
from cadedit._geometry import Feature, FeatureCollection, Polygon
from cadedit._map import Map

__all__ = ['Area', 'CadeditError', 'Feature', 'FeatureCollection', 'Map', 'NoLibrary', 'PlanFault', 'Polygon', 'Position',
           'Refused', 'Ring', 'SyntaxFault', 'ThreadFault']
