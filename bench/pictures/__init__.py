"""PERFORMANCE's pictures: results files read (results), a drawing as SVG (canvas), axes (axes), and the pictures themselves (charts)."""
