"""The parts of tools/plate.py: meshes, settings, scripts, transcripts and pictures round the core."""
