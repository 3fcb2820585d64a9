"""Pictures of scripts and their reports."""
