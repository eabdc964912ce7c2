"""The program's commands that the tests try."""

COMMANDS = ("check", "extract", "normal", "show", "count")
# Those that write no line of what there is to say of a capture.
SILENT = ("extract", "normal")
