"""The colours of maps, page and layers: from dark to light also where they are seen in grey, without red and green."""

NEAR = {20: "#e4eef8", 10: "#c2daef", 5: "#93bfe1", 2: "#5a98cb", 1: "#1f5c99"}  # of near sets, by per cent
SITE = "#e69f00"
BOUNDS = [  # of squares, by their bound in per cent above the site's cost: from, below, words, colour
    (-1e9, 0.0, "less than the site's cost", "#2b2b2b"),
    (0.0, 1.0, "up to 1 % more than the site's cost", "#5c5c5c"),
    (1.0, 5.0, "1 to 5 % more", "#8a8a8a"),
    (5.0, 20.0, "5 to 20 % more", "#b8b8b8"),
    (20.0, 100.0, "20 to 100 % more", "#dedede"),
    (100.0, 1e9, "more than twice", "#f6f6f6"),
]
