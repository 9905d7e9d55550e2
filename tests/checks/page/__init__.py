"""For tests/page.py: the module that ships, and what a module of the page must answer."""
