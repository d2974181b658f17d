"""The library's `Note`, which is one proved value, beside the judge and the program: whether both show the same of a note's file."""
