"""Asks a procedure that isn't in the table: raw.py PORT COUNT PROCEDURE [PARAMETER..]"""
import sys
import geocom

with geocom.Station(sys.argv[1]) as station:  # null procedures go out between, by themselves
    for place in range(int(sys.argv[2])):
        answer = station.raw(int(sys.argv[3]), *sys.argv[4:], target=place)
        print(answer.target, answer.outcome, answer.reading, answer.rc, *answer.items)
