# SPDX-License-Identifier: Apache-2.0
"""How sphinx writes the pages of the Python package."""
project = "foalmorrow"
extensions = ["sphinx.ext.autodoc"]
html_theme = "alabaster"
html_show_copyright = False
html_show_sourcelink = False
autodoc_member_order = "bysource"
