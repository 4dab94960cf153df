#!/usr/bin/env python3
"""Prints the verdicts over all small patterns of four lanes, worked out as docs/COMMIT.md says it, as rows.

They stand in crates/trial_registers/stdin. A lane shows one of twelve patterns of two changes, 1 and 3, each proposed under
two ballots. A row has the parity of the set, the pattern of the first lane, and over all patterns of the other three how many
verdicts are settled, pending and of too few rows, and a sum in which each verdict in its turn has a place. Run it again with
`python3 tools/golden_verdicts.py`.
"""

DRIVES = 4

# What a lane may show: nothing good, or its base and what is on its way, each as a ballot and a change. An absent file has
# a base of zeros.
PATTERNS = [
    None,
    ((0, 0), None),
    ((0, 0), (2, 1)),
    ((0, 0), (5, 1)),
    ((2, 1), None),
    ((5, 1), None),
    ((2, 1), (4, 3)),
    ((2, 1), (6, 3)),
    ((5, 1), (6, 3)),
    ((4, 3), None),
    ((4, 3), (5, 1)),
    ((6, 3), None),
]


def verdict(parity, lanes):
    """The verdict over the lanes as a number: of too few good ones, of a settled lane, or of a pending change."""
    good = [index for index, lane in enumerate(lanes) if lane is not None]
    read = DRIVES - parity
    written = read + 1 if read == parity else read
    if len(good) < read:
        return "few", len(good)
    top = max(lanes[index][0][0] for index in good)
    base = min(index for index in good if lanes[index][0][0] == top)
    coming = [index for index in good if lanes[index][1] is not None]
    if not coming:
        return "settled", 10 + base
    last = max(lanes[index][1][0] for index in coming)
    lane = min(index for index in coming if lanes[index][1][0] == last)
    change = lanes[lane][1][1]
    have = sum(change in (lanes[index][0][1], lanes[index][1] and lanes[index][1][1]) for index in good)
    unread = DRIVES - len(good)
    if last <= top or change == lanes[base][0][1] or have + unread < written:
        return "settled", 10 + base
    return "pending", 10000 + 100 * (10 * base + lane) + 10 * have + unread


def row(parity, first):
    """The counts and the sum of the verdicts in which the first lane shows this pattern."""
    counts = {"settled": 0, "pending": 0, "few": 0}
    total = 0
    for second in PATTERNS:
        for third in PATTERNS:
            for fourth in PATTERNS:
                kind, number = verdict(parity, [PATTERNS[first], second, third, fourth])
                counts[kind] += 1
                total = (total * 31 + number) % 2**64
    return f"vote_core patterns {parity} {first} = {counts['settled']} {counts['pending']} {counts['few']} {total}"


for parity in (2, 1):
    for first in range(len(PATTERNS)):
        print(row(parity, first))
