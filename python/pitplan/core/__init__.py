"""Foundations without mining content: exact decimals, text and CSV files, folders, progress."""
