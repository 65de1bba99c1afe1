"""The sizes and offsets that the Python module gives, as layout.c has them."""

import ctypes

import geocom

for name, structure in geocom.STRUCTURES.items():
    print(name, ctypes.sizeof(structure))
    for field, *_ in structure._fields_:
        place = getattr(structure, field)
        print(f"{name}.{field}", place.offset, place.size)
