"""A page of what a script did, line by line, by the model of the cluster."""
