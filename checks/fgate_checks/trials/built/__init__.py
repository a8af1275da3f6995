"""Cases that a build of the program is tried on: command lines and worked examples."""
