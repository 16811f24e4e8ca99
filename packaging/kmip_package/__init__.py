"""Makes the packages: what is in them, whether the check passed it, and their bytes."""
