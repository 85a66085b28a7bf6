"""The headline's pages: definitions read from the sources (sources), what one stands on (reach), what is said by hand (words), the pages (page)."""
