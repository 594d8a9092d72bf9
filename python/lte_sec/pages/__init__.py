"""Pages in HTML, and pictures in SVG."""
