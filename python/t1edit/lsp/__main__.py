"""Runs the language server: python -m t1edit.lsp"""

import sys

from .server import main

sys.exit(main())
