"""What ./clock and tools/script are made of."""
