"""Numbers that no field of a site, a grid or a scan may have, most of them beyond what 32 bits hold."""

FAR = (-(2**63), 2**63 - 1)


def far_from(good):
    """The first three have the lowest 32 bits of the good number."""
    return good + 2**32, good - 2**32, good % 2**32 - 2**63, -(2**31) - 1, 2**32, *FAR
