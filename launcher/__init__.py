"""The launcher of the switch: it builds the program, starts it, and says what went wrong in words of the user.

This folder is what is shipped beside the program: tools/install copies it whole. It needs Python alone.
"""
