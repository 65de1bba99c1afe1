"""Points at a prism, measures, and reads angles and distance: quickstart.py PORT HZ V"""
import sys
import geocom

with geocom.Station(sys.argv[1]) as station:  # as /dev/ttyUSB0, or 10.0.0.5:4001
    station.aut.make_positioning(sys.argv[2], sys.argv[3], 0, 1, target=7, timeout=35)
    station.tmc.do_measure(1, 1, target=7)
    point = station.tmc.get_simple_mea(5000, 1, target=7)
    print(point.hz_rad, point.v_rad, point.distance_m)
