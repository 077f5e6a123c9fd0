"""Tests of the desk. `desk/test` runs them; pytest finds them too."""

import os
import tempfile

# Hypothesis keeps a table of characters between runs; it is to be out of the repository.
os.environ.setdefault('HYPOTHESIS_STORAGE_DIRECTORY',
                      os.path.join(tempfile.gettempdir(), 'desk-hypothesis'))
