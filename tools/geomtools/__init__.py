"""What `tools/geom` is made of, and what the checks in tests/ share with it. All of it follows docs/PROFILE.md, and the
program doesn't rest on it."""
