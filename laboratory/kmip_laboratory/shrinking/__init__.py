"""The word `shrink`: the smallest part of a recording that still can't be explained."""
