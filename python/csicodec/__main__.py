"""`python -m csicodec`: the program csicodec."""
from .program import main

if __name__ == "__main__":
    main()
