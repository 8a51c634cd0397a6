"""What the commands of tools/ import."""
