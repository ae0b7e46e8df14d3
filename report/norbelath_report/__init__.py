"""The neighbour report of samplers' files: a folder of tables, pictures and a page, made around the proved library."""

__version__ = "1.0.0"
