"""The project: `project.toml` as checked records."""
