"""What several tools share: parameter pages, scripts, traces, pictures and plain policies."""

import sys

# (no tool leaves compiled files beside its text)
sys.dont_write_bytecode = True
