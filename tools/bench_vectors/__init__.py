"""`dsc-bench`: vectors for any decoder. What must come is worked out here by the premises of what is proved of `dsc join`."""
