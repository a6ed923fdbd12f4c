"""`dsc-json`: the lines that `dsc` writes, and DSC and DSE sentences, as JSON objects, one a line."""
