"""Copies of sources in which the tiles that are refused are mended.

Workers mend (`tiles`), and send the bytes back, which the run keeps in its store. When all is judged, the program copies the source
and puts them in (`mbtiles`, `folder`, by `copy`), and writes what was changed (`changes`).
"""
