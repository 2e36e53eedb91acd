"""Tests of the front end. Those named test_* need nothing built; those named built_* need the program `list`."""
