"""What test modules share: projects, tables, folders, and small problems with their answers by other means."""
