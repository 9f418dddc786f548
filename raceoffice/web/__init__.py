"""The office in browsers: what a tap sends, who may write, and the pages that are served."""
