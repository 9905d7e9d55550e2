"""For tests/documents.py and tests/document_pictures.py: sentences, tables, and pictures that are drawn."""
