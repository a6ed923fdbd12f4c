"""What the scripts share: the program, symbols and their elements, pictures, receptions, and the public calls of crates."""
