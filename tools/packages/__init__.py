"""Makes the packages of a commit from its proved builds, tries them, and compares one that is given with those."""
