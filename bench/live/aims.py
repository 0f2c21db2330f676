"""What workers are to reach beside haproxy, and whether they do."""


def of_rate(ratio, least):
    """`ratio`: of haproxy's rate."""
    return f"workers are to have {least:.2f}: {'reached' if ratio >= least else 'short'}"


def of_time(ratio, most):
    """`ratio`: of haproxy's time."""
    return f"workers are to take {most:.2f} at most: {'reached' if ratio <= most else 'short'}"
