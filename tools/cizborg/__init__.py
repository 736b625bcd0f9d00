"""The workbench beside the program: what an engineer or a researcher does next. It proves nothing, and says which answers back what it says."""
