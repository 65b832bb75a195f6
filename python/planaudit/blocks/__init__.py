"""The blocks of the table and those of the results."""
