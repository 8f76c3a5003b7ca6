"""What record/px86-crash does. docs/RECORDING.md is its manual; no part of this is proved."""
