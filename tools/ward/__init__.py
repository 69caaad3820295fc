"""The technician's bench over the proved program: ./ward --help. One module has one subject; main.py ties the sub-commands together."""
