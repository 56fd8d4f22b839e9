"""The parts of audit/judge.py: the text of a journal, blocks, clients, mixers and rounds."""
