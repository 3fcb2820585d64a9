"""Many small scripts in one process of the program, each beside the model of the cluster.

`worker` draws batches of scripts with what the model says of each (`batches`), has the batch program play them (`playing`), and tells what
differs. A batch is drawn from its seed alone.
"""
