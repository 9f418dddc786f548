"""A race office for sailing clubs: the package around the proved program `regatta`."""
