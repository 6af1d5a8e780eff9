"""The second reckoning: the figures of paper 01 worked out again in whole numbers, apart from the proved code."""
