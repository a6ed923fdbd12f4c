"""`dsc-listen`: a station of several receivers, live. It leads runs of `dsc`, which alone decides about calls."""
