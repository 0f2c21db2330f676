"""Pages of `toxi report`, as parsers and a browser see them."""
