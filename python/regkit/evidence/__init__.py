"""What a yes rests on: how many reads were completed, and overlapped a write."""
