"""Files without a prior, for the listing, the page and the calls: priors of no weight, and prior variances beside them."""

from dataclasses import replace
from random import Random

import layout
import samples
from damage import put
from layout import LARGEST_YEAR, MEAN_LIMITS, PRIOR_VARIANCE_LIMITS, File, build_file, parts_count

(LEAST, MOST), (LOWEST, HIGHEST) = PRIOR_VARIANCE_LIMITS, MEAN_LIMITS
VARIANCES = {"1": 1, "below-the-least": LEAST - 1, "least": LEAST, "most": MOST, "above-the-most": MOST + 1}
MEANS = {"below-the-lowest": LOWEST - 1, "lowest": LOWEST, "highest": HIGHEST, "above-the-highest": HIGHEST + 1}


def accepted_files() -> dict[str, File]:
    """By name: all parts without a prior, or the first or the last alone; at the limits; far from where they settle, and never settled."""
    files = {}
    for last in (1, LARGEST_YEAR):
        file, parts = _file(last), range(parts_count(last))
        for where, flat in (("all", parts), ("first", parts[:1]), ("last", parts[-1:])):
            files[f"flat-{where}-{last:02}"] = samples.without_priors(file, flat)
        for end, name in enumerate(("low", "high")):
            files[f"flat-limits-{name}-{last:02}"] = samples.without_priors(samples.file_at_limits(last, end))
    return files | {
        "flat-many-sweeps": samples.without_priors(samples.many_sweeps()),
        "flat-spent": samples.spent_without_priors(),
        "flat-spent-65536": samples.spent_without_priors(closeness=65_536),
    }


def inputs() -> dict[str, bytes]:
    return {name: build_file(file) for name, file in accepted_files().items()} | beside_flat_priors()


def beside_flat_priors() -> dict[str, bytes]:
    """Variances and means at their limits or one past them: of the shortest file's first prior, and of the last of the longest."""
    files = {}
    for last, part in ((1, 0), (LARGEST_YEAR, parts_count(LARGEST_YEAR) - 1)):
        flat = build_file(samples.without_priors(_file(last)))
        for name, variance in VARIANCES.items():
            files[f"prior-variance-{name}-{last:02}"] = put(flat, layout.prior_variance_place(last, part), variance, 8)
        for name, mean in MEANS.items():
            files[f"flat-mean-{name}-{last:02}"] = put(flat, layout.prior_mean_place(last, part), mean, 4)
    # 7 comes before 8 although the mean's place is before the variance's.
    above = files["flat-mean-above-the-highest-01"]
    return files | {"flat-mean-and-variance-1": put(above, layout.prior_variance_place(1, 2), 1, 8)}


def _file(last: int) -> File:
    if last == 1:
        return samples.file_f()
    return replace(samples.with_same_end(samples.mild_file(Random("flat"), last)), closeness=256)
