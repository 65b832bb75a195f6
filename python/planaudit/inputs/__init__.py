"""What is read: the project, its table, surveys, and the results of a folder."""
