"""A series: its folder, its settings and entry list, its journal's copies, and what is done to them."""
