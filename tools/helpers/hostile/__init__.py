"""The parts of tools/hostile, and what tools/fuzz takes of them.

A part is a module with `run(given)`, which answers how many cases passed and how many failed: fault_table, stream_faults,
refused_memory, refused_in_threads, hurtful_inputs with hurtful_texts, damaged_files.
"""
