"""A module for each first word. It has its commands, in COMMANDS; ./block takes a word for a tool's where its module is here."""
