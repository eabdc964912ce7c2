"""The pages of contracts: what the sources of each library say of it, read and written as Markdown."""
