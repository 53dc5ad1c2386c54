"""Ports with owners, and three tasks one after another. The same program stands in C, C++ and Rust, and writes the same text."""

from intervallum import IntervalMap, Model, MutableIntervalSet

# the free ports in pages, and who holds the others
free = MutableIntervalSet([range(1024, 65536)])
owners = IntervalMap[str]()
for name, count in (("anna", 8), ("bela", 4), ("cleo", 2)):
    ports = free.take_first_fit(count)
    assert ports, "there are enough ports"
    owners.set(*ports, name)
# bela gives two back, and cleo gets one of anna's
del owners[1034:1036]
free.add_run(1034, 1035)
owners[1031] = "cleo"
for (lower, upper), name in owners:
    print(f"{lower}..{upper} {name}")
print(f"{len(free)} ports are free, in {len(free.runs())} runs")
room = owners.first_fit(1024, 2000, 5)
assert room, "there is room"
print(f"the lowest 5 without an owner: {room[0]}..{room[1]}")

# a copy of 3 hours, then a check of 2; a transfer of 4, from hour 5 on; one at a time, and over as soon as they can be
day = Model()
copy, check, transfer = (day.variable(range(start, 21)) for start in (0, 0, 5))
end = day.variable(range(25))
day.no_overlap([(copy, 3), (check, 2), (transfer, 4)])
day.at_most(copy, 3, check)
day.at_most(check, 2, end)
day.at_most(transfer, 4, end)
best = day.minimize(end).solution
assert best, "there is a plan"
print(f"copy at {best[copy]}, check at {best[check]}, transfer at {best[transfer]}, over at {best[end]}")
day.restrict(end, range(13))
print(f"{day.count().number} plans are over by 12")
day.restrict(end, range(9))
print(f"over by 8: {'yes' if day.first().solution else 'no'}")
