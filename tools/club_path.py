"""Lets a tool import the modules of club/, once it has imported this one."""
import sys
from pathlib import Path

sys.path.append(str(Path(__file__).resolve().parent.parent))
