"""tools/campaign: what it keeps, what it says where it keeps nothing, and on a cluster."""
