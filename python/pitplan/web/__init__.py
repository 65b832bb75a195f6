"""The browser application: `pitplan serve` shows the projects and results of a folder, and runs the same commands as the command line.

The folder is its database: pages read and write the project files and output folders that the commands use. Jobs are child processes, whose state
is in the folder too, so they survive the server.
"""
