"""The parts that gpkg-listing and gpkg-check share."""
