"""What is computed with arrays and tables. These modules import numpy and pandas."""
