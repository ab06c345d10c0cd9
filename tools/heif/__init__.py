"""Reads the boxes, items and properties of a HEIF file, and shows them as text or as a picture."""
