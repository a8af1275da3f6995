"""Generated command lines and inputs for the program, and what is compared."""
