"""The tools for operators of lif; tools/README.md says what each does."""

# That of CHANGELOG.md.
VERSION = "0.23.0"
