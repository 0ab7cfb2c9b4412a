"""`python3 -m regkit`, and the entry point of the zip archive that `make install` puts in place."""
from regkit.cli import run_and_exit

if __name__ == "__main__":
    run_and_exit()
