"""mvtgate.planet: judges all tiles of MBTiles files, PMTiles archives and folders over many workers, and writes a report.

It is a program: `python3 -m mvtgate.planet FILE..`, installed as `mvtgate-planet`. It needs Dask's distributed scheduler, jinja2
and tqdm, which Debian has as python3-distributed, python3-jinja2 and python3-tqdm.
"""
