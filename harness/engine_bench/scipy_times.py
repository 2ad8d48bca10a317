# Times scipy's linear_sum_assignment on the bench's sheets: a line a family, microseconds a call, the best of several passes.
import sys
import time

import numpy
from scipy.optimize import linear_sum_assignment

LEFT_OUT = 268435456.0
data = numpy.fromfile(sys.argv[1], dtype=numpy.uint32)
families, k = {}, 0
while k < len(data):
    family, tracks, reports = (int(x) for x in data[k : k + 3])
    k += 3
    cells = data[k : k + tracks * reports].reshape(tracks, reports).astype(numpy.float64)
    k += tracks * reports
    cells[cells > LEFT_OUT] = LEFT_OUT
    families.setdefault(family, []).append(numpy.ascontiguousarray(cells))
for family in sorted(families):
    best = 1e9
    for _ in range(12):
        start = time.perf_counter()
        for cells in families[family]:
            linear_sum_assignment(cells)
        best = min(best, (time.perf_counter() - start) / len(families[family]) * 1e6)
    print(f"{best:.2f}")
