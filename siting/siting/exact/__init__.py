"""All that a planner has to trust beside `bsss`: exact tests and charges, in whole numbers and fractions."""
